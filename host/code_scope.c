/* The depths and scopes of lent code, the second of its three tests: each name is bound once in its function, used
 * where it may be, and of the depth that is wanted there. */
#include "code_judge.h"
#include "node_kinds.h"

#include <inttypes.h>
#include <stdio.h>
#include <string.h>

enum { NAMES = ENGINE_NEW_NAMES_MAX };

/* A function that is being judged. */
struct fitting {
    struct code_judge *judge;
    uint8_t *depths;      /* of its names */
    bool is_bound[NAMES];
};

/* The depths that a tree may have, and why. */
struct wanted {
    unsigned least, greatest;
    const char *why;
};

static bool fit_tree(struct fitting *f, const bool *outer, struct wanted wanted, unsigned *depth);

/* ---- Names ---- */

bool atom_name(const struct code_judge *j, uint32_t line, unsigned place, uint8_t *name)
{
    *name = (uint8_t)j->operands[line + 1 + place];
    return j->kinds[line + 1 + place] == ENGINE_KIND_NAME;
}

struct role role_in_code(const struct code *code, uint32_t line, unsigned place)
{
    if (code->kinds[line] != ENGINE_KIND_END)
        return role_of(node_kind_of(code->kinds[line]), node_operand_of(code, line), place);
    return (struct role){ "result" };
}

static bool bind(struct fitting *f, uint32_t line, int64_t name, unsigned depth)
{
    if (f->is_bound[name])
        return blame(f->judge, line, "it binds name %" PRId64 ", which the function has bound before", name);
    f->is_bound[name] = true;
    f->depths[name] = (uint8_t)depth;
    return true;
}

static bool is_in_scope(struct fitting *f, uint32_t line, uint8_t name, const bool *scope)
{
    return scope[name]
           || blame(f->judge, line, f->is_bound[name] ? "name %u is bound before, and not to be used here"
                                                      : "name %u is bound nowhere before", name);
}

static bool atoms_are_in_scope(struct fitting *f, uint32_t line, const bool *scope)
{
    uint8_t name;
    for (unsigned i = 0; i < atoms_after(&f->judge->code, line); i++)
        if (atom_name(f->judge, line, i, &name) && !is_in_scope(f, line, name, scope))
            return false;
    return true;
}

/* ---- Depths ---- */

static unsigned depth_of(const struct fitting *f, uint32_t line, unsigned place)
{
    uint8_t name;
    return atom_name(f->judge, line, place, &name) ? f->depths[name] : 0;
}

/* Whether an atom's depth is within these. */
static bool is_deep(struct fitting *f, uint32_t line, unsigned place, unsigned least, unsigned greatest)
{
    unsigned depth = depth_of(f, line, place);
    if (depth >= least && depth <= greatest)
        return true;
    struct role role = role_in_code(&f->judge->code, line, place);
    if (least == greatest)
        return blame(f->judge, line, "its %s is of depth %u, and %u is wanted", role.text, depth, least);
    return blame(f->judge, line, "its %s is of depth %u, and %u to %u is wanted", role.text, depth, least, greatest);
}

/* The arguments of a call are of their parameters' depths. */
static bool fit_call(struct fitting *f, uint32_t line, unsigned *depth)
{
    const struct code *code = &f->judge->code;
    uint32_t callee = code->functions[code->operands[line] / 256];
    for (unsigned i = 0; i < atoms_after(code, line); i++) {
        unsigned wanted = (unsigned)(code->operands[callee + 1 + i] / 256);
        if (!is_deep(f, line, i, wanted, wanted))
            return false;
    }
    *depth = (unsigned)(code->operands[callee] / 256);
    return true;
}

static bool fit_literal(struct fitting *f, uint32_t line, unsigned *depth)
{
    unsigned element = (unsigned)(f->judge->operands[line] / 65536);
    for (unsigned i = 0; i < atoms_after(&f->judge->code, line); i++)
        if (!is_deep(f, line, i, element, element))
            return false;
    *depth = element + 1;
    return true;
}

/* The depth of what a line without a tree gives. */
static bool fit_leaf(struct fitting *f, uint32_t line, unsigned *depth)
{
    const unsigned most = ENGINE_DEPTH_MAX;
    switch (f->judge->kinds[line]) {
    case ENGINE_KIND_CALL: return fit_call(f, line, depth);
    case ENGINE_KIND_LITERAL: return fit_literal(f, line, depth);
    case ENGINE_KIND_INDEX:
        *depth = depth_of(f, line, 0) - 1;
        return is_deep(f, line, 0, 1, most) && is_deep(f, line, 1, 0, 0);
    case ENGINE_KIND_LENGTH: *depth = 0; return is_deep(f, line, 0, 1, most);
    case ENGINE_KIND_IOTA: *depth = 1; return is_deep(f, line, 0, 0, 0);
    case ENGINE_KIND_REPLICATE:
        *depth = depth_of(f, line, 1) + 1;
        return is_deep(f, line, 0, 0, 0) && is_deep(f, line, 1, 0, most - 1);
    default: *depth = 0; return is_deep(f, line, 0, 0, 0) && is_deep(f, line, 1, 0, 0);
    }
}

/* ---- Lines with trees; the present line is the first of the tree ---- */

static bool fit_if(struct fitting *f, uint32_t line, const bool *scope, unsigned *depth)
{
    const struct wanted any = { 0, ENGINE_DEPTH_MAX, "" };
    if (!is_deep(f, line, 0, 0, 0) || !fit_tree(f, scope, any, depth))
        return false;
    return fit_tree(f, scope, (struct wanted){ *depth, *depth, "as the first branch has" }, depth);
}

/* The depths that the tree of a loop may give. */
static struct wanted wanted_of(const struct fitting *f, uint32_t line)
{
    unsigned start = depth_of(f, line, 0);
    switch (f->judge->kinds[line]) {
    case ENGINE_KIND_MAP: return (struct wanted){ 0, ENGINE_DEPTH_MAX - 1, "for an element of the map" };
    case ENGINE_KIND_REDUCE: return (struct wanted){ start, start, "as the start has" };
    default: return (struct wanted){ 0, 0, "" };
    }
}

/* The depth of a loop whose tree gives this one. */
static unsigned loop_depth(const struct fitting *f, uint32_t line, unsigned tree)
{
    switch (f->judge->kinds[line]) {
    case ENGINE_KIND_FILTER: return depth_of(f, line, 0);
    case ENGINE_KIND_REDUCE: return tree;
    default: return tree + 1;
    }
}

static bool fit_loop(struct fitting *f, uint32_t line, const bool *scope, unsigned *depth)
{
    bool inner[NAMES], is_reduce = f->judge->kinds[line] == ENGINE_KIND_REDUCE;
    int64_t operand = f->judge->operands[line], first = operand / 256 % 256, second = operand / 65536;
    unsigned place = is_reduce, most = f->judge->kinds[line] == ENGINE_KIND_REWRITING_MAP ? 1 : ENGINE_DEPTH_MAX;
    unsigned element = depth_of(f, line, place) - 1, tree;
    if (!is_deep(f, line, place, 1, most) || !bind(f, line, first, is_reduce ? depth_of(f, line, 0) : element)
        || (is_reduce && !bind(f, line, second, element)))
        return false;
    memcpy(inner, scope, sizeof inner);
    inner[first] = inner[is_reduce ? second : first] = true;
    if (!fit_tree(f, inner, wanted_of(f, line), &tree))
        return false;
    *depth = loop_depth(f, line, tree);
    return true;
}

/* ---- Lines and trees ---- */

/* A retain or release: of an array. */
static bool fit_count(struct fitting *f, uint32_t line, const bool *scope)
{
    uint8_t name = (uint8_t)f->judge->operands[line];
    f->judge->at++;
    return is_in_scope(f, line, name, scope)
           && (f->depths[name] > 0 || blame(f->judge, line, "name %u is a number, which has no references", name));
}

/* What a line does that is neither, and the depth of what it gives. */
static bool fit_work(struct fitting *f, uint32_t line, const bool *scope, unsigned *depth)
{
    switch (trees_of(node_kind_of(f->judge->kinds[line]))) {
    case 0: return fit_leaf(f, line, depth);
    case 2: return fit_if(f, line, scope, depth);
    default: return fit_loop(f, line, scope, depth);
    }
}

/* The line's name is bound before its trees, and may be used after them. */
static bool fit_line(struct fitting *f, bool *scope)
{
    struct code_judge *j = f->judge;
    uint32_t line = j->at;
    uint8_t kind = j->kinds[line], name = (uint8_t)(j->operands[line] % 256);
    unsigned depth = 0;
    if (kind == ENGINE_KIND_RETAIN || kind == ENGINE_KIND_RELEASE)
        return fit_count(f, line, scope);
    j->at += 1 + atoms_after(&j->code, line);
    if (!atoms_are_in_scope(f, line, scope) || !bind(f, line, name, 0) || !fit_work(f, line, scope, &depth))
        return false;
    f->depths[name] = (uint8_t)depth;
    scope[name] = true;
    return true;
}

static bool fit_tree(struct fitting *f, const bool *outer, struct wanted wanted, unsigned *depth)
{
    struct code_judge *j = f->judge;
    bool scope[NAMES];
    memcpy(scope, outer, sizeof scope);
    while (j->kinds[j->at] != ENGINE_KIND_END)
        if (!fit_line(f, scope))
            return false;
    uint32_t end = j->at;
    if (!atoms_are_in_scope(f, end, scope))
        return false;
    *depth = depth_of(f, end, 0);
    if (*depth < wanted.least || *depth > wanted.greatest)
        return blame(j, end, "the tree ends with a value of depth %u, and %u%s is wanted%s%s", *depth, wanted.greatest,
                     wanted.least < wanted.greatest ? " or less" : "", wanted.why[0] == '\0' ? "" : " ", wanted.why);
    j->at += 2;
    return true;
}

/* ---- Functions ---- */

static bool fit_function(struct code_judge *j, size_t function)
{
    struct fitting f = { .judge = j, .depths = j->depths[function] };
    uint32_t line = j->code.functions[function];
    unsigned result = (unsigned)(j->operands[line] / 256), found;
    for (unsigned i = 1; i <= j->code.parameters[function]; i++)
        if (!bind(&f, line + i, j->operands[line + i] % 256, (unsigned)(j->operands[line + i] / 256)))
            return false;
    j->at = line + 1 + j->code.parameters[function];
    return fit_tree(&f, f.is_bound, (struct wanted){ result, result, "as the function's line says" }, &found);
}

bool judge_scope(struct code_judge *j, uint64_t depth)
{
    if (depth > ENGINE_DEPTH_MAX || j->operands[0] != 2 + 256 * (int64_t)depth
        || j->operands[1] / 256 != (int64_t)depth || j->operands[2] / 256 != 1)
        return blame(j, 0, "main has not two parameters, the totals and the readings, of depth %" PRIu64
                     " and 1, and a result of depth %" PRIu64, depth, depth);
    for (size_t f = 0; f < j->code.count; f++)
        if (!fit_function(j, f))
            return false;
    return true;
}
