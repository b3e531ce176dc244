/* Which node binds each name of a script, and what uses it. */
#include "script_bindings.h"
#include "node_kinds.h"

enum { NAMES = 256 };

/* What a name is bound to, as a descent comes by. */
struct binding {
    size_t node;
    bool is_second;
};

struct descent {
    const struct script *script;
    struct bindings *found;
    struct binding bindings[NAMES];
};

static void find_part(struct descent *d, size_t node);

/* A part in which a name is bound. */
static void find_body(struct descent *d, size_t body, int64_t name, struct binding binding)
{
    struct binding outer = d->bindings[name];
    d->bindings[name] = binding;
    find_part(d, body);
    d->bindings[name] = outer;
}

/* The last part of a node that binds names there: a reduce's second name hides an equal first. */
static void find_bound_part(struct descent *d, size_t node, size_t body)
{
    int64_t operand = d->script->nodes[node].operand;
    struct binding outer = d->bindings[operand % 256];
    if (pass_names_of(d->script->nodes[node].kind) < 2) {
        find_body(d, body, operand, (struct binding){ node, false });
        return;
    }
    d->bindings[operand % 256] = (struct binding){ node, false };
    find_body(d, body, operand / 256, (struct binding){ node, true });
    d->bindings[operand % 256] = outer;
}

static void find_part(struct descent *d, size_t node)
{
    const struct node *n = &d->script->nodes[node];
    bool binds = n->kind == ENGINE_KIND_LET || pass_names_of(n->kind) > 0;
    unsigned children = children_of(n->kind, n->operand);
    size_t at = node + 1;
    if (n->kind == ENGINE_KIND_NAME) {
        struct binding binding = d->bindings[n->operand];
        d->found->binder[node] = binding.node;
        d->found->is_second[node] = binding.is_second;
        d->found->is_used[binding.node] = true;
    }
    for (unsigned i = 0; i < children; i++, at = d->found->shape.after[at]) {
        if (binds && i + 1 == children)
            find_bound_part(d, node, at);
        else
            find_part(d, at);
    }
}

/* Marks a function and all that it calls. */
static void mark_called(const struct script *s, struct bindings *found, size_t function)
{
    size_t node = found->shape.functions[function];
    if (found->is_called[function])
        return;
    found->is_called[function] = true;
    for (size_t i = node; i < found->shape.after[node]; i++)
        if (s->nodes[i].kind == ENGINE_KIND_CALL)
            mark_called(s, found, (size_t)(s->nodes[i].operand % 256));
}

void find_bindings(const struct script *script, struct bindings *found)
{
    struct descent d = { .script = script, .found = found };
    *found = (struct bindings){ .is_called = { false } };
    find_shape(script, &found->shape);
    for (size_t i = 0; i < script->functions; i++) {
        size_t at = found->shape.functions[i] + 1;
        for (; script->nodes[at].kind == ENGINE_KIND_PARAMETER; at++)
            d.bindings[script->nodes[at].operand % 256] = (struct binding){ at, false };
        find_part(&d, at);
    }
    mark_called(script, found, 0);
}

size_t function_of(const struct script *script, const struct bindings *found, size_t node)
{
    size_t function = 0;
    while (function + 1 < script->functions && found->shape.functions[function + 1] <= node)
        function++;
    return function;
}
