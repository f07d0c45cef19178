/* Finds the resolutions of a book with Q lines among the views that clingo lists, for the benchmark.
 *
 *     sift SECONDS views COUNT COMMAND   prints up to so many resolutions as taken, held and denied
 *     sift SECONDS aspects FILE COMMAND  writes what the resolutions take, and what ranks in them, as facts to the file
 *     sift SECONDS judge OWN COMMAND     prints the verdict on the view that the command OWN shows
 *
 * A command runs clingo on a program made by to_clingo. Its models show taken/1 and step/2, and for `views` s/1 and -s/1
 * too. Domination depends on the steps that rank in both views, and on nothing else of what they conclude: views with
 * the same steps are a class, and only classes are compared with each other. The last line that is printed is "unfinished"
 * if clingo didn't list everything, else "done". The program ends itself after so many seconds. */
#define _GNU_SOURCE
#include <inttypes.h>
#include <stdint.h>
#include <stdio.h>
#include <stdlib.h>
#include <string.h>
#include <sys/wait.h>
#include <unistd.h>

enum { EXCEPTIONS = 16, SETS = 1 << EXCEPTIONS, ALL_MODELS = 30, NO_MODEL = 20 };

/* From each exception the set of those that steps lead to. */
typedef struct {
    uint16_t to[EXCEPTIONS];
} relation;

typedef struct {
    uint64_t taken, held, denied;
    size_t class;
} view;

/* The views with the same steps: all exceptions that they take, and all that other views outrank by steps of both. */
typedef struct {
    relation steps;
    uint16_t takers, outranked;
} class;

static view *views;
static size_t view_count, view_room;
static class *classes;
static size_t class_count, class_room;
static size_t *buckets, bucket_count;
static uint8_t smaller[SETS];

static void *grown(void *old, size_t *room, size_t size) {
    *room = *room == 0 ? 1024 : 2 * *room;
    void *more = realloc(old, *room * size);
    if (more == NULL) exit(4);
    return more;
}

/* ---- classes, by a table of their numbers, counted from 1 */

static size_t bucket_of(const relation *steps) {
    uint64_t hash = 14695981039346656037u;
    for (int from = 0; from < EXCEPTIONS; from++) hash = (hash ^ steps->to[from]) * 1099511628211u;
    size_t at = (size_t)(hash ^ hash >> 29) & (bucket_count - 1);
    while (buckets[at] != 0 && memcmp(&classes[buckets[at] - 1].steps, steps, sizeof *steps) != 0)
        at = (at + 1) & (bucket_count - 1);
    return at;
}

static void fill_buckets(void) {
    bucket_count = bucket_count == 0 ? 1 << 12 : 4 * bucket_count;
    free(buckets);
    buckets = calloc(bucket_count, sizeof *buckets);
    if (buckets == NULL) exit(4);
    for (size_t place = 0; place < class_count; place++) buckets[bucket_of(&classes[place].steps)] = place + 1;
}

static size_t class_of(const relation *steps) {
    if (2 * class_count >= bucket_count) fill_buckets();
    size_t at = bucket_of(steps);
    if (buckets[at] == 0) {
        if (class_count == class_room) classes = grown(classes, &class_room, sizeof *classes);
        classes[class_count] = (class){*steps, 0, 0};
        buckets[at] = ++class_count;
    }
    return buckets[at] - 1;
}

/* ---- models */

/* The number at a place of a line, which is moved behind it. */
static unsigned number_at(const char **at) {
    unsigned number = 0;
    for (; **at >= '0' && **at <= '9'; ++*at) number = 10 * number + (unsigned)(**at - '0');
    return number;
}

/* Whether an atom begins so; then the place is moved behind it. */
static int begins(const char **at, const char *name) {
    size_t length = strlen(name);
    if (strncmp(*at, name, length) != 0) return 0;
    *at += length;
    return 1;
}

/* The view of a model. */
static view read_model(const char *at) {
    view model = {0};
    relation steps = {{0}};
    while (*at != '\n' && *at != 0) {
        uint64_t *side = begins(&at, "taken(") ? &model.taken : begins(&at, "s(") ? &model.held : NULL;
        if (side == NULL && begins(&at, "-s(")) side = &model.denied;
        if (side != NULL) {
            *side |= UINT64_C(1) << (number_at(&at) - 1);
        } else if (begins(&at, "step(")) {
            unsigned from = number_at(&at);
            at++;
            steps.to[from - 1] |= (uint16_t)(1u << (number_at(&at) - 1));
        } else {
            exit(5);
        }
        at += strspn(at, ") ");
    }
    model.class = class_of(&steps);
    return model;
}

/* Hands each model of a command to the function, and answers clingo's status. */
static int read_models(const char *command, void (*use)(view)) {
    FILE *models = popen(command, "r");
    char *line = NULL;
    size_t room = 0;
    if (models == NULL) exit(4);
    while (getline(&line, &room, models) > 0) {
        if (strcmp(line, "SATISFIABLE\n") != 0 && strcmp(line, "UNSATISFIABLE\n") != 0) use(read_model(line));
    }
    free(line);
    int status = pclose(models);
    return WIFEXITED(status) ? WEXITSTATUS(status) : -1;
}

static void keep(view model) {
    if (view_count == view_room) views = grown(views, &view_room, sizeof *views);
    views[view_count++] = model;
    classes[model.class].takers |= (uint16_t)model.taken;
}

/* ---- what stands, and what is smaller */

static relation chains_of(relation steps) {
    for (int through = 0; through < EXCEPTIONS; through++) {
        for (int from = 0; from < EXCEPTIONS; from++) {
            if (steps.to[from] >> through & 1) steps.to[from] |= steps.to[through];
        }
    }
    return steps;
}

/* The exceptions that the members of a class outrank by the steps that they share with another class. */
static uint16_t outranked_by(const class *above, const class *below) {
    relation shared = above->steps;
    uint16_t set = 0;
    for (int from = 0; from < EXCEPTIONS; from++) shared.to[from] &= below->steps.to[from];
    shared = chains_of(shared);
    for (int from = 0; from < EXCEPTIONS; from++) {
        if (above->takers >> from & 1) set |= shared.to[from];
    }
    return set;
}

static int stands(const view *own) { return (classes[own->class].outranked & own->taken) == 0; }

/* Fills in which exceptions each class has outranked, and which sets are above that of a view that stands. */
static void compare_classes(void) {
    static uint8_t has[SETS];
    for (size_t below = 0; below < class_count; below++) {
        for (size_t above = 0; above < class_count; above++)
            classes[below].outranked |= outranked_by(&classes[above], &classes[below]);
    }
    for (size_t place = 0; place < view_count; place++) has[views[place].taken] |= (uint8_t)stands(&views[place]);
    for (unsigned set = 0; set < SETS; set++) {
        for (unsigned rest = set; rest != 0; rest &= rest - 1) {
            unsigned less = set ^ (rest & -rest);
            smaller[set] |= has[less] | smaller[less];
        }
    }
}

static int resolved(const view *own) { return stands(own) && !smaller[own->taken]; }

/* ---- what is asked */

static int finish(int status) { return puts(status == ALL_MODELS || status == NO_MODEL ? "done" : "unfinished") < 0; }

static int print_views(const char *count, const char *command) {
    int status = read_models(command, keep);
    long left = atol(count);
    compare_classes();
    for (size_t place = 0; place < view_count && left > 0; place++) {
        const view *own = &views[place];
        if (!resolved(own)) continue;
        printf("%" PRIu64 " %" PRIu64 " %" PRIu64 "\n", own->taken, own->held, own->denied);
        left--;
    }
    return finish(status);
}

static void write_aspect(FILE *facts, size_t name, const view *own) {
    fprintf(facts, "allowed(%zu).", name);
    for (int from = 0; from < EXCEPTIONS; from++) {
        if (own->taken >> from & 1) fprintf(facts, " member(%zu,%d).", name, from + 1);
        for (int to = 0; to < EXCEPTIONS; to++) {
            if (classes[own->class].steps.to[from] >> to & 1)
                fprintf(facts, " ranked(%zu,%d,%d).", name, from + 1, to + 1);
        }
    }
    fputc('\n', facts);
}

static int write_aspects(const char *path, const char *command) {
    int status = read_models(command, keep);
    FILE *facts = fopen(path, "w");
    size_t name = 0;
    if (facts == NULL) exit(4);
    compare_classes();
    for (size_t place = 0; place < view_count; place++) {
        if (resolved(&views[place])) write_aspect(facts, ++name, &views[place]);
    }
    return fclose(facts) != 0 || finish(status) || (status != ALL_MODELS && status != NO_MODEL);
}

static view asked;
static int shown;

static void ask(view model) { asked = model, shown = 1; }

static int judge(const char *own, const char *command) {
    read_models(own, ask);
    int status = read_models(command, keep);
    compare_classes();
    printf("verdict %d\n", !shown ? 1 : !stands(&asked) ? 4 : smaller[asked.taken] ? 5 : 0);
    return finish(status);
}

int main(int count, char **arguments) {
    if (count != 5) {
        fprintf(stderr, "use: sift SECONDS views COUNT | aspects FILE | judge OWN, and then COMMAND\n");
        return 2;
    }
    alarm((unsigned)atoi(arguments[1]));
    if (strcmp(arguments[2], "views") == 0) return print_views(arguments[3], arguments[4]);
    if (strcmp(arguments[2], "aspects") == 0) return write_aspects(arguments[3], arguments[4]);
    return judge(arguments[3], arguments[4]);
}
