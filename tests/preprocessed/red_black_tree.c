/* A red-black tree with insertion, checks and deletion of the whole. */
#include <assert.h>
#include <stdbool.h>
#include <stdlib.h>

enum color { RED, BLACK };

struct node {
    int key;
    enum color color;
    struct node *parent, *left, *right;
};

struct tree {
    struct node *root;
    size_t count;
};

static void replace_child(struct tree *tree, struct node *old, struct node *new)
{
    if (!old->parent)
        tree->root = new;
    else if (old == old->parent->left)
        old->parent->left = new;
    else
        old->parent->right = new;
    if (new)
        new->parent = old->parent;
}

static void rotate_left(struct tree *tree, struct node *node)
{
    struct node *right = node->right;

    replace_child(tree, node, right);
    node->right = right->left;
    if (right->left)
        right->left->parent = node;
    right->left = node;
    node->parent = right;
}

static void rotate_right(struct tree *tree, struct node *node)
{
    struct node *left = node->left;

    replace_child(tree, node, left);
    node->left = left->right;
    if (left->right)
        left->right->parent = node;
    left->right = node;
    node->parent = left;
}

static bool is_red(const struct node *node)
{
    return node != NULL && node->color == RED;
}

static void repair(struct tree *tree, struct node *node)
{
    while (is_red(node->parent)) {
        struct node *parent = node->parent, *grand = parent->parent;
        bool is_left = parent == grand->left;
        struct node *uncle = is_left ? grand->right : grand->left;

        if (is_red(uncle)) {
            parent->color = uncle->color = BLACK;
            grand->color = RED;
            node = grand;
            continue;
        }
        if (is_left) {
            if (node == parent->right)
                rotate_left(tree, node = parent);
            node->parent->color = BLACK;
            grand->color = RED;
            rotate_right(tree, grand);
        } else {
            if (node == parent->left)
                rotate_right(tree, node = parent);
            node->parent->color = BLACK;
            grand->color = RED;
            rotate_left(tree, grand);
        }
    }
    tree->root->color = BLACK;
}

static bool insert(struct tree *tree, int key)
{
    struct node *parent = NULL, **place = &tree->root, *node;

    while (*place) {
        parent = *place;
        if (key == parent->key)
            return false;
        place = key < parent->key ? &parent->left : &parent->right;
    }
    node = malloc(sizeof *node);
    if (!node)
        exit(EXIT_FAILURE);
    node->key = key;
    node->color = RED;
    node->parent = parent;
    node->left = node->right = NULL;
    *place = node;
    ++tree->count;
    repair(tree, node);
    return true;
}

static int black_height(const struct node *node)
{
    int left, right;

    if (!node)
        return 1;
    assert(!is_red(node) || (!is_red(node->left) && !is_red(node->right)));
    left = black_height(node->left);
    right = black_height(node->right);
    assert(left == right);
    return left + (node->color == BLACK);
}

static void drop(struct node *node)
{
    if (!node)
        return;
    drop(node->left);
    drop(node->right);
    free(node);
}

extern int __VERIFIER_nondet_int(void);

int main(void)
{
    struct tree tree = { .root = NULL, .count = 0 };

    for (int i = 0; i < 100 && __VERIFIER_nondet_int(); i++)
        insert(&tree, __VERIFIER_nondet_int());
    black_height(tree.root);
    drop(tree.root);
    return 0;
}
