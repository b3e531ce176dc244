/* A site: the script, or tuned code for it, and the store that a controller lends the engine, and the file that keeps
 * the store. */
#define _POSIX_C_SOURCE 200809L /* openat */
#include "site.h"
#include "lock.h"

#include <errno.h>
#include <fcntl.h>
#include <stdio.h>
#include <string.h>
#include <unistd.h>

static uint8_t store_bytes[STORE_BYTES_MAX + 1]; /* one more, so that a longer file is seen to be longer */

/* ---- The script ---- */

/* Files that are no script file, but something else that a user of these programs has at hand. A script file that the
 * engine accepts has a byte of 0: the second, as it has at most 32 functions. */
static void refuse_other_files(const char *path, const uint8_t *bytes, size_t length)
{
    if (has_store_mark(bytes, length))
        fail(STATUS_UNUSABLE, "%s: a store, where a script file is wanted; name the store with --store FILE", path);
    if (has_tuned_mark(bytes, length))
        fail(STATUS_UNUSABLE, "%s: tuned code, where a script file is wanted; name it with --code FILE beside its"
             " script", path);
    if (length > 0 && memchr(bytes, 0, length) == NULL)
        fail(STATUS_UNUSABLE, "%s: a text, where a script file is wanted; 'script_tool assemble' makes one", path);
}

uint64_t take_script(struct site *site, const char *path)
{
    size_t length = read_whole(path, site->file, sizeof site->file);
    refuse_other_files(path, site->file, length);
    site->lent = (struct engine_lent){
        .file = site->file,
        .file_length = length,
        .kinds = site->kinds,
        .kinds_length = ENGINE_CODE_LINES_MAX,
        .operands = site->operands,
        .operands_length = ENGINE_CODE_LINES_MAX,
    };
    uint64_t answer = engine_translate_lent(&site->lent);
    site->header.script = checksum_of(site->file, length);
    site->header.depth = (unsigned)(site->operands[0] / 256); /* line 0 is main: parameters + 256 x depth of result */
    return answer;
}

/* ---- Tuned code ---- */

/* Tuned code as it is lent. */
static struct engine_code tuned_code(const struct site *site)
{
    const struct tuned *tuned = &site->tuned;
    return (struct engine_code){ tuned->kinds, tuned->lines, tuned->operands, tuned->lines };
}

uint64_t take_code(struct site *site, const char *path, uint32_t lines)
{
    struct tuned *tuned = &site->tuned;
    uint32_t other;
    read_tuned(tuned, path);
    if (tuned->depth != site->header.depth)
        fail(STATUS_UNUSABLE, "%s: code of another script: main's depth is %u there and %u in this script; name the"
             " script that it was made of, or tune this one's", path, tuned->depth, site->header.depth);
    const struct engine_code code = tuned_code(site);
    uint64_t answer = engine_check_code_lent(&site->lent, &code);
    if (engine_answer_number(answer) == ENGINE_DONE
        && !is_tuned_from(tuned, site->kinds, site->operands, lines, &other))
        fail(STATUS_UNUSABLE, "%s: code of another script: its line %lu is not this script's; name the script that it"
             " was made of, or tune this one's", path, (unsigned long)other);
    return answer;
}

uint64_t deliver(struct site *site, const int64_t *readings, size_t count, uint64_t budget)
{
    if (site->tuned.lines == 0)
        return engine_deliver_lent(&site->lent, readings, count, budget);
    const struct engine_code code = tuned_code(site);
    return engine_deliver_code_lent(&site->lent, &code, readings, count, budget);
}

/* ---- The store ---- */

void lend_cells(struct site *site, size_t cells)
{
    site->header.cells = cells;
    site->lent.slots = site->slots;
    site->lent.slots_length = ENGINE_SLOTS_LENGTH(cells);
    site->lent.heads = site->heads;
    site->lent.heads_length = ENGINE_HEADS_LENGTH(cells);
}

/* Fails where a store that is whole is not one that is wanted; false where it is one of another depth. */
static bool compare_headers(const struct store_header *found, const struct store_header *script,
                            const struct wanted *wanted)
{
    if (found->depth != script->depth && wanted->replaces)
        return false;
    if (found->depth != script->depth)
        fail(STATUS_UNUSABLE,
             "%s: a store of another script: main's depth is %u there and %u in this script; name its own script, or"
             " another store",
             wanted->path, found->depth, script->depth);
    if (found->script != script->script && !wanted->takes_another_scripts)
        fail(STATUS_UNUSABLE, "%s: a store of another script; with --new-script this one takes it over", wanted->path);
    if (wanted->cells != 0 && found->cells != wanted->cells)
        fail(STATUS_UNUSABLE,
             "%s: a store of %zu cells, and --cells says %zu; leave --cells out, or move the totals into a new store",
             wanted->path, found->cells, wanted->cells);
    return true;
}

void mark_damaged(struct site *site, const char *what)
{
    const struct place *place = &site->place;
    if (!may_keep_damaged(place))
        fail(STATUS_UNUSABLE, "%s: %s; it would be kept as '%s', which is there already: move that away", place->given,
             what, place->damaged);
    complain("%s: %s; restored totals are to replace it, and it is kept as '%s'", place->given, what, place->damaged);
    site->is_damaged = true;
}

/* What to do about a store that cannot be used. */
static _Noreturn void fail_for(const char *path, const char *what)
{
    fail(STATUS_UNUSABLE, "%s: %s; look at it with --show, put a copy back, or restore saved totals", path, what);
}

/* Locks the store's file and holds it. */
static void lock_store(struct place *place, const struct wanted *wanted)
{
    size_t length = strlen(wanted->path), ending = strlen(PREVIOUS_ENDING);
    if (length >= ending && strcmp(wanted->path + length - ending, PREVIOUS_ENDING) == 0)
        fail(STATUS_UNUSABLE, "%s: a name that ends so is for the store before the last save; copy it to another name",
             wanted->path);
    find_place(place, wanted->path);
    place->keeps_previous = wanted->keeps_previous;
    if (!lock_place(place) || !hold_file(place))
        fail(STATUS_UNUSABLE, "%s: another controller has this store; end it, or wait until it ends", wanted->path);
    if (place->is_there && place->has_other_names)
        fail(STATUS_UNUSABLE, "%s: has other names (hard links), which would keep the old store; remove those",
             wanted->path);
}

/* The file that is called the previous store is replaced: it must be one. */
static void check_previous(const struct place *place)
{
    uint8_t mark[8];
    int file = openat(place->folder, place->previous, O_RDONLY | O_CLOEXEC | O_NOFOLLOW | O_NONBLOCK);
    if (file < 0 && errno == ENOENT)
        return;
    ssize_t length = file < 0 ? 0 : read(file, mark, sizeof mark);
    if (length < 0 || !has_store_mark(mark, (size_t)length))
        fail(STATUS_UNUSABLE, "%s: '%s', where the store before the last save is kept, is no store; move it away",
             place->given, place->previous);
    close(file);
}

enum taking take_store(struct site *site, const struct wanted *wanted)
{
    struct store_header found = { 0 };
    struct store_fault fault = { "" };
    lock_store(&site->place, wanted);
    if (wanted->keeps_previous)
        check_previous(&site->place);
    site->is_kept = true;
    if (!site->place.is_there)
        return STORE_ABSENT;
    size_t length = read_held(&site->place, store_bytes, sizeof store_bytes);
    enum store_reading reading = decode_store(store_bytes, length, &found, site->slots, site->heads, &fault);
    if (reading != STORE_WHOLE && !(wanted->replaces && resembles_store(store_bytes, length)))
        fail_for(wanted->path, fault.text);
    if (reading == STORE_WHOLE && !compare_headers(&found, &site->header, wanted))
        snprintf(fault.text, sizeof fault.text, "a store of another script: main's depth is %u there and %u in this"
                 " script", found.depth, site->header.depth);
    lend_cells(site, reading == STORE_UNREADABLE ? 0 : found.cells);
    site->header.deliveries = found.deliveries;
    if (fault.text[0] == '\0')
        return STORE_TAKEN;
    mark_damaged(site, fault.text);
    return STORE_TO_REPLACE;
}

bool save_store(struct site *site, struct place_fault *fault)
{
    if (!site->is_kept)
        return true;
    struct place *place = &site->place;
    bool keeps_previous = place->keeps_previous;
    if (site->is_damaged && !keep_damaged(place, fault))
        return false;
    place->keeps_previous = keeps_previous && !site->is_damaged; /* which is kept by another name */
    size_t length = encode_store(store_bytes, &site->header, site->slots, site->heads);
    bool is_saved = replace_file(place, store_bytes, length, fault);
    place->keeps_previous = keeps_previous;
    site->is_damaged = false;
    return is_saved;
}
