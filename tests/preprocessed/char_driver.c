/* A character driver that keeps what is written as a list of messages, behind a table of operations. */
#include <errno.h>
#include <stdlib.h>
#include <string.h>
#include <sys/types.h>
#include "list.h"

#define LONGEST 32

struct inode;

struct file {
	unsigned int flags;
	void *private_data;
};

struct file_operations {
	int (*open)(struct inode *inode, struct file *file);
	int (*release)(struct inode *inode, struct file *file);
	ssize_t (*read)(struct file *file, char *buffer, size_t count);
	ssize_t (*write)(struct file *file, const char *buffer, size_t count);
};

struct cdev {
	const struct file_operations *ops;
	struct list_head messages;
	int users;
};

struct inode {
	struct cdev *cdev;
};

struct message {
	struct list_head link;
	size_t length;
	char text[LONGEST];
};

static int device_open(struct inode *inode, struct file *file)
{
	struct cdev *cdev = inode->cdev;

	if (cdev->users++)
		return -EBUSY;
	file->private_data = cdev;
	return 0;
}

static int device_release(struct inode *inode, struct file *file)
{
	struct cdev *cdev = file->private_data;
	struct message *message, *after;

	(void)inode;
	list_for_each_entry_safe(message, after, &cdev->messages, link) {
		list_del(&message->link);
		free(message);
	}
	cdev->users--;
	return 0;
}

static ssize_t device_read(struct file *file, char *buffer, size_t count)
{
	struct cdev *cdev = file->private_data;
	struct message *message;
	ssize_t length;

	if (list_empty(&cdev->messages))
		return 0;
	message = list_first_entry(&cdev->messages, struct message, link);
	if (message->length > count)
		return -EINVAL;
	memcpy(buffer, message->text, LONGEST);
	length = message->length;
	list_del(&message->link);
	free(message);
	return length;
}

static ssize_t device_write(struct file *file, const char *buffer, size_t count)
{
	struct cdev *cdev = file->private_data;
	struct message *message;

	if (count > LONGEST)
		return -EINVAL;
	message = calloc(1, sizeof(*message));
	if (!message)
		return -ENOMEM;
	message->length = count;
	memcpy(message->text, buffer, count);
	list_add_tail(&message->link, &cdev->messages);
	return count;
}

static const struct file_operations operations = {
	.open = device_open,
	.release = device_release,
	.read = device_read,
	.write = device_write,
};

static struct cdev device = { &operations, LIST_HEAD_INIT(device.messages), 0 };

int main(void)
{
	struct inode inode = { &device };
	struct file file = { 0, NULL };
	char line[LONGEST] = { 'h', 'i' };

	if (device.ops->open(&inode, &file))
		return 1;
	for (int i = 0; i < 100; i++)
		if (device.ops->write(&file, line, 2) < 0 || (i % 3 && device.ops->read(&file, line, sizeof(line)) < 0))
			break;
	return device.ops->release(&inode, &file);
}
