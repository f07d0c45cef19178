/*
 * The store of named resolutions is kept between runs in a file of 1,024 bytes, which bantameasel.h lays out. Where
 * there is no such file, the store is empty. A changed store is written into a new file, which then takes the old one's
 * place: a run that is ended midway leaves the old store or the new one, and whole.
 */
#define _POSIX_C_SOURCE 200809L /* fileno, fsync, getpid */

#include "names.h"

#include <errno.h>
#include <inttypes.h>
#include <stdio.h>
#include <stdlib.h>
#include <string.h>
#include <unistd.h>

#include "points.h"

enum {
    ENTRY = BANTAMEASEL_STORE / BANTAMEASEL_MOST_NAMES /* bytes of an entry; the first of them are its name */
};

static const char letters[] = "ABCDEFGHIJKLMNOPQRSTUVWXYZ0123456789";

/* ---- the file ---- */

bool read_store(const char *name, store *s)
{
    memset(s, 0, sizeof *s);
    s->name = name;
    s->length = BANTAMEASEL_STORE;
    FILE *file = fopen(name, "rb");
    if (file == NULL) {
        return errno == ENOENT || fail(name, strerror(errno));
    }
    s->length = fread(s->bytes, 1, sizeof s->bytes, file);
    bool good = !ferror(file);
    fclose(file);
    return good || fail(name, "it could not be read");
}

/* Writes the store into a new file of the given name, and on to the disk. A failure leaves no such file. */
static bool write_new(const char *name, const store *s)
{
    FILE *file = fopen(name, "wb");
    if (file == NULL) {
        return fail(name, strerror(errno));
    }
    bool good = fwrite(s->bytes, 1, s->length, file) == s->length && fflush(file) == 0 && fsync(fileno(file)) == 0;
    int cause = errno;
    if (fclose(file) != 0 && good) {
        good = false;
        cause = errno;
    }
    if (!good) {
        remove(name);
        fail(name, strerror(cause));
    }
    return good;
}

/* The new file has the run's number in its name, so that two runs at once do not write into the same one. */
bool write_store(const store *s)
{
    char ending[32];
    snprintf(ending, sizeof ending, ".new%ld", (long)getpid());
    char *beside = joined(s->name, ending);
    if (beside == NULL) {
        return fail(s->name, "there is no memory for its name");
    }
    bool good = write_new(beside, s);
    if (good && rename(beside, s->name) != 0) {
        good = fail(s->name, strerror(errno));
        remove(beside);
    }
    free(beside);
    return good || fail(s->name, "the names are as they were before");
}

/* ---- names ---- */

void capitals(char *word)
{
    for (; *word != '\0'; word++) {
        if (*word >= 'a' && *word <= 'z') {
            *word = (char)(*word - 'a' + 'A');
        }
    }
}

bool name_at(const store *s, size_t k, char word[NAME + 1])
{
    if (k >= BANTAMEASEL_MOST_NAMES || s->bytes[ENTRY * k] == 0) {
        return false;
    }
    memcpy(word, s->bytes + ENTRY * k, NAME);
    word[NAME] = '\0';
    word[strcspn(word, " ")] = '\0';
    return true;
}

/* Says whether a word, filled up with spaces, is a name. */
static bool well_spelt(const char *word)
{
    size_t front = strspn(word, letters), all = front + strspn(word + front, " ");
    return front >= 1 && all <= NAME && word[all] == '\0';
}

/* ---- 24: the bytes of the store ---- */

/* Says whether the 8 bytes at the front of an entry are a name. */
static bool spelt_entry(const uint8_t *entry)
{
    char word[NAME + 1] = { 0 };
    memcpy(word, entry, NAME);
    return well_spelt(word) && strlen(word) == NAME;
}

/* Says whether the name of entry k is well spelt, and comes after that of the entry before it. */
static bool right_entry(const store *s, size_t k)
{
    const uint8_t *entry = s->bytes + ENTRY * k;
    return spelt_entry(entry) && (k == 0 || memcmp(entry - ENTRY, entry, NAME) < 0);
}

/* Says what is wrong with entry k, the first of a store of the right length that is not as it should be. */
static void explain_entry(const store *s, size_t k)
{
    const uint8_t *entry = s->bytes + ENTRY * k;
    if (entry[0] == 0) {
        fputs("    Bytes other than 0 stand where its names have ended.\n", stderr);
    } else if (!spelt_entry(entry)) {
        fprintf(stderr, "    Its name number %zu is misspelt.\n", k + 1);
    } else {
        fprintf(stderr, "    Its names do not ascend: number %zu does not come after number %zu.\n", k + 1, k);
    }
}

static void explain_bytes(const store *s)
{
    size_t k = 0;
    if (s->length > BANTAMEASEL_STORE) {
        fprintf(stderr, "    It has more than %d bytes; a store has %d.\n", BANTAMEASEL_STORE, BANTAMEASEL_STORE);
    } else if (s->length < BANTAMEASEL_STORE) {
        fprintf(stderr, "    It has %zu bytes; a store has %d.\n", s->length, BANTAMEASEL_STORE);
    } else {
        while (k < BANTAMEASEL_MOST_NAMES - 1 && right_entry(s, k)) {
            k++;
        }
        explain_entry(s, k);
    }
    fputs("    It was left as it is. Put back a copy from before; or rename it, and the names begin anew.\n", stderr);
}

/* ---- 25: the name ---- */

static void explain_name(const store *s, const char *word)
{
    char other[NAME + 1];
    if (!well_spelt(word)) {
        fprintf(stderr, "    '%s' is no name. A name has 1 to %d characters: letters A to Z and digits 0 to 9.\n", word,
                NAME);
        return;
    }
    if (!name_at(s, 0, other)) {
        fputs("    There are no names yet.\n", stderr);
        return;
    }
    fprintf(stderr, "    There is no name %s. The names are:", word);
    for (size_t k = 0; name_at(s, k, other); k++) {
        fprintf(stderr, " %s", other);
    }
    fputs("\n", stderr);
}

/* ---- all ---- */

void show_store_fault(const store *s, const char *word, uint32_t refusal)
{
    switch (refusal) {
    case BANTAMEASEL_REFUSED_STORE: explain_bytes(s); break;
    case BANTAMEASEL_REFUSED_NAME: explain_name(s, word); break;
    case BANTAMEASEL_REFUSED_STORE_FULL:
        fprintf(stderr, "    It has %d names. Drop one that is no longer needed, or keep this one in another file "
                "by -s.\n", BANTAMEASEL_MOST_NAMES);
        break;
    default: break;
    }
}
