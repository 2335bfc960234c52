/* Jobs wait in a tail queue of <sys/queue.h>. A job that is cancelled is freed while TAILQ_FOREACH stands on it. */
#include <stdlib.h>
#include <sys/queue.h>

struct job {
  int number;
  TAILQ_ENTRY(job) next;
};

TAILQ_HEAD(job_queue, job);

static struct job_queue queue = TAILQ_HEAD_INITIALIZER(queue);

static void submit(int number) {
  struct job *job = malloc(sizeof *job);
  if (job == NULL)
    abort();
  job->number = number;
  TAILQ_INSERT_TAIL(&queue, job, next);
}

static void cancel(int number) {
  struct job *job;
  TAILQ_FOREACH(job, &queue, next) {
    if (job->number == number) {
      TAILQ_REMOVE(&queue, job, next);
      free(job);
    }
  }
}

int main(void) {
  submit(1);
  submit(2);
  cancel(1);
  cancel(2);
  return 0;
}
