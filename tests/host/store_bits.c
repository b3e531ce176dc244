/* Changes a store's file bit by bit: none may pass. Or writes a store in the first version of its file.
 *
 *   store_bits STORE CHANGED CONTROLLER ARGUMENT..
 *   store_bits --first-version STORE FIRST
 *
 * Each bit of STORE is changed in memory and the bytes are decoded; for each byte, one bit is changed in the file
 * CHANGED and the command is run, which must end with status 2, name the damage, and leave the file as it is. */
#define _POSIX_C_SOURCE 200809L
#include "../../host/store_file.h"

#include <stdio.h>
#include <stdlib.h>
#include <string.h>
#include <sys/wait.h>
#include <unistd.h>

static uint8_t bytes[STORE_BYTES_MAX], found[STORE_BYTES_MAX];
static int64_t slots[ENGINE_SLOTS_LENGTH(ENGINE_CELLS_MAX)];
static uint32_t heads[ENGINE_HEADS_LENGTH(ENGINE_CELLS_MAX)];
static unsigned failed;

/* What is said of a change of this byte. */
static const char *damage_of(size_t byte)
{
    return byte < 8 ? "not a store" : byte < 10 ? "a store of version" : byte < STORE_HEADER_BYTES
           ? "its header is damaged" : "its words are damaged";
}

static void expect(bool holds, const char *what, size_t byte)
{
    if (!holds && failed++ < 10)
        printf("  failed: byte %zu: %s\n", byte, what);
}

static size_t read_file(const char *path, uint8_t *buffer, size_t capacity)
{
    FILE *file = fopen(path, "rb");
    size_t length = file == NULL ? 0 : fread(buffer, 1, capacity, file);
    if (file == NULL || fclose(file) != 0)
        exit(2);
    return length;
}

static void write_file(const char *path, size_t length)
{
    FILE *file = fopen(path, "wb");
    if (file == NULL || fwrite(bytes, 1, length, file) != length || fclose(file) != 0)
        exit(2);
}

static void decode_changed(size_t length, size_t byte)
{
    struct store_header header;
    struct store_fault fault;
    for (unsigned bit = 0; bit < 8; bit++) {
        bytes[byte] ^= (uint8_t)(1u << bit);
        bool is_whole = decode_store(bytes, length, &header, slots, heads, &fault) == STORE_WHOLE;
        expect(!is_whole && strncmp(fault.text, damage_of(byte), strlen(damage_of(byte))) == 0, "a bit changed", byte);
        bytes[byte] ^= (uint8_t)(1u << bit);
    }
}

/* Runs a command; gives its status, and what it says on standard error. */
static int run(char **command, char *said, size_t capacity)
{
    int ends[2], status;
    if (pipe(ends) != 0)
        exit(2);
    pid_t child = fork();
    if (child == 0) {
        dup2(ends[1], STDERR_FILENO);
        close(ends[0]);
        close(ends[1]);
        if (freopen("/dev/null", "w", stdout) != NULL)
            execv(command[0], command);
        _exit(127);
    }
    close(ends[1]);
    size_t length = 0;
    ssize_t more;
    while (length + 1 < capacity && (more = read(ends[0], said + length, capacity - length - 1)) > 0)
        length += (size_t)more;
    said[length] = '\0';
    close(ends[0]);
    return waitpid(child, &status, 0) == child && WIFEXITED(status) ? WEXITSTATUS(status) : -1;
}

static void run_changed(const char *path, char **command, size_t length, size_t byte)
{
    char said[4096];
    bytes[byte] ^= (uint8_t)(1u << byte % 8);
    write_file(path, length);
    expect(run(command, said, sizeof said) == 2, "its exit status", byte);
    expect(strstr(said, damage_of(byte)) != NULL, "its message", byte);
    expect(read_file(path, found, sizeof found) == length && memcmp(found, bytes, length) == 0, "it was written", byte);
    bytes[byte] ^= (uint8_t)(1u << byte % 8);
}

/* Version 1 is without the 8 bytes of the number of deliveries, before the header's checksum. */
static int write_first_version(const char *from, const char *to)
{
    enum { AT_VERSION = 8, AT_DELIVERIES = 24, DELIVERIES_BYTES = 8, CHECKSUM_BYTES = 4 };
    size_t length = read_file(from, bytes, sizeof bytes);
    bytes[AT_VERSION] = 1;
    memmove(bytes + AT_DELIVERIES, bytes + AT_DELIVERIES + DELIVERIES_BYTES, length - AT_DELIVERIES - DELIVERIES_BYTES);
    uint32_t checksum = checksum_of(bytes, AT_DELIVERIES);
    for (unsigned i = 0; i < CHECKSUM_BYTES; i++)
        bytes[AT_DELIVERIES + i] = (uint8_t)(checksum >> 8 * i);
    write_file(to, length - DELIVERIES_BYTES);
    return 0;
}

int main(int count, char **arguments)
{
    if (count < 4)
        return 2;
    if (strcmp(arguments[1], "--first-version") == 0)
        return write_first_version(arguments[2], arguments[3]);
    size_t length = read_file(arguments[1], bytes, sizeof bytes);
    for (size_t byte = 0; byte < length; byte++) {
        decode_changed(length, byte);
        run_changed(arguments[2], arguments + 3, length, byte);
    }
    printf("%zu bytes changed, %u failed\n", length, failed);
    return length > 0 && failed == 0 ? 0 : 1;
}
