/* The holds of lent code, the third of its three tests: how many references each name of a function holds. */
#include "code_judge.h"
#include "node_kinds.h"

#include <inttypes.h>
#include <string.h>

enum { NAMES = ENGINE_NEW_NAMES_MAX, NO_NAME = -1 };

/* A function that is being judged. */
struct holding {
    struct code_judge *judge;
    const uint8_t *depths; /* of its names */
    bool (*is_borrowed)[ENGINE_PARAMETERS_MAX];
};

/* Where a line stands: the names that are lent there, as borrowed parameters and the arrays of loops at work, and the
 * name that may be retained by this very line. */
struct around {
    const bool *lent;
    int pending;
};

/* What must be true as a tree ends: each name holds what it does in `holds`; or, where the first branch of an if ends,
 * only names hold any that did before it or are lent. */
struct ending {
    enum { FIRST_BRANCH, SECOND_BRANCH, PASS, FUNCTION } of;
    const uint16_t *holds;
    const bool *lent;
};

static bool hold_tree(struct holding *h, struct around around, uint16_t *holds, struct ending ending);

/* ---- Atoms ---- */

/* Whether the atom at a place is an array's name; then which. */
static bool is_array(const struct holding *h, uint32_t line, unsigned place, uint8_t *name)
{
    return atom_name(h->judge, line, place, name) && h->depths[*name] > 0;
}

static void gain(const struct holding *h, uint8_t name, uint16_t *holds)
{
    holds[name] = (uint16_t)(holds[name] + (h->depths[name] > 0));
}

/* Why a name that holds nothing cannot be spent or read. */
static bool blame_name(struct holding *h, uint32_t line, uint8_t name, const char *what, bool is_lent)
{
    return blame(h->judge, line, "%s name %u, which holds no reference here%s", what, name,
                 is_lent ? " besides the one that stays while it is lent"
                         : ": it was spent, or not retained straight after it was bound");
}

/* The atoms that a line hands over each spend one. */
static bool hand_over(struct holding *h, uint32_t line, const bool *lent, uint16_t *holds)
{
    uint8_t name;
    for (unsigned i = 0; i < atoms_after(&h->judge->code, line); i++) {
        if (!hands_over(&h->judge->code, line, i, h->is_borrowed) || !is_array(h, line, i, &name))
            continue;
        if (holds[name] == 0)
            return blame_name(h, line, name, "it hands over", lent[name]);
        holds[name]--;
    }
    return true;
}

/* The others are read: each holds one still, or is lent. */
static bool read_atoms(struct holding *h, uint32_t line, const bool *lent, const uint16_t *holds)
{
    uint8_t name;
    for (unsigned i = 0; i < atoms_after(&h->judge->code, line); i++)
        if (!hands_over(&h->judge->code, line, i, h->is_borrowed) && is_array(h, line, i, &name) && !lent[name]
            && holds[name] == 0)
            return blame_name(h, line, name, "it reads", false);
    return true;
}

/* ---- Ends ---- */

static bool ends_well(struct holding *h, uint32_t line, const uint16_t *holds, struct ending ending)
{
    for (unsigned name = 0; name < NAMES; name++) {
        unsigned found = holds[name], wanted = ending.holds[name];
        switch (ending.of) {
        case FIRST_BRANCH:
            if (found > 0 && wanted == 0 && !ending.lent[name])
                return blame(h->judge, line, "the branch ends, and name %u, which is bound in it, still holds %u", name,
                             found);
            break;
        case SECOND_BRANCH:
            if (found != wanted)
                return blame(h->judge, line, "the branches end differently: name %u holds %u after the first and %u"
                             " after the second", name, wanted, found);
            break;
        case PASS:
            if (found != wanted)
                return blame(h->judge, line, "the pass ends with %u reference%s of name %u, and it began with %u",
                             found, found == 1 ? "" : "s", name, wanted);
            break;
        case FUNCTION:
            if (found != 0)
                return blame(h->judge, line, "the function ends, and name %u still holds %u", name, found);
            break;
        }
    }
    return true;
}

/* ---- Lines; the present line is the first of the tree ---- */

static bool hold_if(struct holding *h, struct around around, uint16_t *holds)
{
    uint16_t second[NAMES], before[NAMES];
    memcpy(before, holds, sizeof before);
    memcpy(second, holds, sizeof second);
    around.pending = NO_NAME;
    return hold_tree(h, around, holds, (struct ending){ FIRST_BRANCH, before, around.lent })
           && hold_tree(h, around, second, (struct ending){ SECOND_BRANCH, holds, around.lent });
}

/* One reference of the array stays with it through the passes, unless it is lent already; a reduce's first name holds
 * one as each begins. */
static bool hold_loop(struct holding *h, uint32_t line, struct around around, const uint16_t *holds)
{
    bool inner[NAMES], is_reduce = h->judge->kinds[line] == ENGINE_KIND_REDUCE;
    uint16_t outer[NAMES], pass[NAMES];
    int64_t operand = h->judge->operands[line], first = operand / 256 % 256, second = operand / 65536;
    int64_t element = is_reduce ? second : first;
    uint8_t array;
    memcpy(inner, around.lent, sizeof inner);
    memcpy(outer, holds, sizeof outer);
    if (h->judge->kinds[line] != ENGINE_KIND_REWRITING_MAP && is_array(h, line, is_reduce, &array)) {
        outer[array] = (uint16_t)(outer[array] - !around.lent[array]);
        inner[array] = true;
    }
    memcpy(pass, outer, sizeof pass);
    if (is_reduce)
        gain(h, (uint8_t)first, pass);
    const struct around within = { inner, h->depths[element] > 0 ? (int)element : NO_NAME };
    return hold_tree(h, within, pass, (struct ending){ PASS, outer, inner });
}

static bool hold_count(struct holding *h, uint32_t line, struct around around, uint16_t *holds)
{
    uint8_t name = (uint8_t)h->judge->operands[line];
    bool is_retain = h->judge->kinds[line] == ENGINE_KIND_RETAIN, is_lent = around.lent[name];
    h->judge->at++;
    if (holds[name] == 0 && !(is_retain && (is_lent || around.pending == name)))
        return blame_name(h, line, name, is_retain ? "it retains" : "it releases", is_lent);
    holds[name] = (uint16_t)(is_retain ? holds[name] + 1 : holds[name] - 1);
    return true;
}

/* A line, and the name that the next one may retain though it holds none. */
static bool hold_line(struct holding *h, struct around *around, uint16_t *holds)
{
    struct code_judge *j = h->judge;
    uint32_t line = j->at;
    uint8_t kind = j->kinds[line], name = (uint8_t)(j->operands[line] % 256);
    const struct around here = *around;
    unsigned trees = trees_of(node_kind_of(kind));
    around->pending = NO_NAME;
    if (kind == ENGINE_KIND_RETAIN || kind == ENGINE_KIND_RELEASE)
        return hold_count(h, line, here, holds);
    j->at += 1 + atoms_after(&j->code, line);
    if (!hand_over(h, line, here.lent, holds) || !read_atoms(h, line, here.lent, holds))
        return false;
    if (trees > 0 && !(trees == 2 ? hold_if(h, here, holds) : hold_loop(h, line, here, holds)))
        return false;
    if (kind == ENGINE_KIND_INDEX)
        around->pending = h->depths[name] > 0 ? name : NO_NAME;
    else
        gain(h, name, holds);
    return true;
}

static bool hold_tree(struct holding *h, struct around around, uint16_t *holds, struct ending ending)
{
    struct code_judge *j = h->judge;
    while (j->kinds[j->at] != ENGINE_KIND_END)
        if (!hold_line(h, &around, holds))
            return false;
    uint32_t end = j->at;
    j->at += 2;
    return hand_over(h, end, around.lent, holds) && ends_well(h, end, holds, ending);
}

/* ---- Functions ---- */

/* A function's owned arrays hold one each as it begins, and its borrowed ones are lent. */
static bool hold_function(struct holding *h, size_t function)
{
    const struct code *code = &h->judge->code;
    uint32_t line = code->functions[function];
    bool lent[NAMES] = { false };
    uint16_t holds[NAMES] = { 0 };
    static const uint16_t none[NAMES];
    for (unsigned i = 0; i < code->parameters[function]; i++) {
        uint8_t name = (uint8_t)(code->operands[line + 1 + i] % 256);
        if (h->is_borrowed[function][i])
            lent[name] = true;
        else
            gain(h, name, holds);
    }
    h->judge->at = line + 1 + code->parameters[function];
    return hold_tree(h, (struct around){ lent, NO_NAME }, holds, (struct ending){ FUNCTION, none, lent });
}

bool judge_holds(struct code_judge *j)
{
    bool is_borrowed[ENGINE_FUNCTIONS_MAX][ENGINE_PARAMETERS_MAX];
    find_borrowed(&j->code, is_borrowed);
    for (size_t f = 0; f < j->code.count; f++) {
        struct holding h = { j, j->depths[f], is_borrowed };
        if (!hold_function(&h, f))
            return false;
    }
    return true;
}
