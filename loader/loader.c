/*
 * A small loader: checks a cycle file against a specification file and says in
 * words what it found.
 *
 *     loader SPECIFICATION CYCLE [MINUTES]
 *     loader --dated SPECIFICATION FIRST SECOND [MINUTES]
 *
 * With MINUTES, a decimal number, each report may arrive up to so many minutes
 * late. With --dated the cycle is that of the file in force of two dated ones, and
 * the loader says first which of them that is. After a refusal 15 or 16 it lists
 * the fewest reports that show it on time, if any do, to send back to the carrier;
 * of many, the first and the last.
 *
 * Exit status: 0 the cycle obeys the specification; 1 it is refused; 2 wrong
 * usage, or a file that the system does not hand over.
 *
 * Build: cc -std=c11 -I include loader/loader.c target/staticlib/libmaxeltu.a -o loader
 */
#include <errno.h>
#include <stdbool.h>
#include <stdio.h>
#include <stdlib.h>
#include <string.h>

#include "maxeltu.h"

enum { EXIT_OBEYS = 0, EXIT_REFUSED = 1, EXIT_UNREADABLE = 2 };

struct bytes {
    uint8_t *at; /* never null once read, even for an empty file */
    size_t length;
};

/* What a refusal means, for a person. Only numbers that maxeltu_verdict, maxeltu_check_late and maxeltu_in_force answer. */
static const char *words(uint32_t refusal)
{
    switch (refusal) {
    case MAXELTU_SPEC_MAP:
        return "the specification's bit map is missing or wrong";
    case MAXELTU_SPEC_LENGTH:
        return "the specification's length is not what its bit map calls for";
    case MAXELTU_SPEC_LIMITS:
        return "a value of the specification is out of its limits";
    case MAXELTU_SPEC_ORDER:
        return "a lower bound of the specification is above its upper bound";
    case MAXELTU_SPEC_RANGES:
        return "the specification's second range of gaps does not start above its first";
    case MAXELTU_TOO_LATE:
        return "the lateness is above 1440 minutes";
    case MAXELTU_COUNT:
        return "the cycle's count of pairs is 0 or above 512";
    case MAXELTU_GAP:
        return "some gap of the cycle is in no range of the specification";
    case MAXELTU_SIZE:
        return "some size of the cycle is out of range";
    case MAXELTU_TOO_FULL:
        return "some stretch of R minutes is too full: more than the budget B";
    case MAXELTU_TOO_THIN:
        return "some stretch of P minutes is too thin: less than the demand L";
    case MAXELTU_PAIR_MAP:
        return "a pair of the cycle file has a wrong bit map";
    case MAXELTU_FILE_CUT:
        return "the cycle file ends early: fetch it again";
    case MAXELTU_FIELD_REPEATED:
        return "the cycle file repeats a field that should be left out";
    case MAXELTU_BYTES_OVER:
        return "the cycle file has bytes after the last pair: write to the carrier";
    case MAXELTU_SAME_DAY:
        return "the two cycle files have the same issue day and differ: write to the carrier";
    default:
        return "no meaning known to this loader";
    }
}

/* Reads from `file` to its end. Gives up, with errno set, on an error. */
static int read_open(FILE *file, struct bytes *bytes)
{
    size_t room = 4096;
    bytes->length = 0;
    bytes->at = malloc(room);
    while (bytes->at) {
        bytes->length += fread(bytes->at + bytes->length, 1, room - bytes->length, file);
        if (bytes->length < room)
            return ferror(file) ? -1 : 0;
        room *= 2;
        uint8_t *larger = realloc(bytes->at, room);
        if (!larger)
            return -1;
        bytes->at = larger;
    }
    return -1;
}

/* Reads a whole file; complains and answers nonzero where that fails. */
static int read_file(const char *name, struct bytes *bytes)
{
    FILE *file = fopen(name, "rb");
    int failed = !file || read_open(file, bytes);
    if (failed)
        fprintf(stderr, "loader: %s: %s\n", name, strerror(errno));
    if (file)
        fclose(file);
    return failed;
}

/* Reads decimal digits, and nothing else, as a number of at most 32 bits; false where the text is none. */
static bool read_minutes(const char *text, uint32_t *minutes)
{
    size_t digits = strspn(text, "0123456789");
    /* The largest number there is where it would be larger: above 32 bits all the same. */
    unsigned long long number = strtoull(text, NULL, 10);
    *minutes = (uint32_t)number;
    return digits > 0 && text[digits] == '\0' && number <= UINT32_MAX;
}

/* As maxeltu_verdict, for reports that may arrive late. The specification is judged before the cycle's file is read: of no pairs the
 * check answers MAXELTU_COUNT, unless the specification or the lateness is refused. */
static uint32_t late_verdict(const struct bytes *spec, struct maxeltu_bytes cycle, uint32_t minutes)
{
    struct maxeltu_pair pairs[MAXELTU_MAX_PAIRS] = { { 0, 0 } };
    uint32_t count, refusal = maxeltu_check_late(spec->at, spec->length, pairs, 0, minutes);
    if (refusal != MAXELTU_COUNT)
        return refusal;
    refusal = maxeltu_read_cycle(cycle.at, cycle.length, pairs, MAXELTU_MAX_PAIRS, &count);
    return refusal ? refusal : maxeltu_check_late(spec->at, spec->length, pairs, count, minutes);
}

static int tell(uint32_t refusal)
{
    if (refusal == MAXELTU_OK) {
        puts("the cycle obeys the specification");
        return EXIT_OBEYS;
    }
    printf("refused %u: %s\n", (unsigned)refusal, words(refusal));
    return EXIT_REFUSED;
}

/* The same for reports that may arrive late: what is wrong with a gap or a stretch is so with some delays. */
static int tell_late(uint32_t refusal, uint32_t minutes)
{
    if (refusal == MAXELTU_OK) {
        printf("the cycle obeys the specification however its reports are delayed, up to %u minute%s\n",
               (unsigned)minutes, minutes == 1 ? "" : "s");
        return EXIT_OBEYS;
    }
    if (refusal != MAXELTU_GAP && refusal != MAXELTU_TOO_FULL && refusal != MAXELTU_TOO_THIN)
        return tell(refusal);
    printf("refused %u: with some delays %s\n", (unsigned)refusal, words(refusal));
    return EXIT_REFUSED;
}

/* A run of reports of a cycle's endless repetition: those from number `first` up to, not including, number `past`. */
struct run {
    struct maxeltu_pair pairs[MAXELTU_MAX_PAIRS];
    uint32_t count, first, past;
};

/* Minutes from the start of the round: that of report i, which may lie in a later one. */
static unsigned long minute_of(const struct run *run, uint32_t i)
{
    unsigned long minute = 0;
    for (uint32_t j = 0; j < i; j++)
        minute += run->pairs[j % run->count].gap;
    return minute;
}

static unsigned long records_of(const struct run *run)
{
    unsigned long records = 0;
    for (uint32_t i = run->first; i < run->past; i++)
        records += run->pairs[i % run->count].size;
    return records;
}

/* Of many reports so many at either end get a line. */
enum { ENDS = 6 };

/* A line for each report, or for those at both ends and one for all between, which takes the place of two lines or more. */
static void tell_reports(const struct run *run)
{
    uint32_t reports = run->past - run->first, left_out = reports > 2 * ENDS + 1 ? reports - 2 * ENDS : 0;
    unsigned long minute = minute_of(run, run->first);
    for (uint32_t i = run->first; i < run->past; i++) {
        const struct maxeltu_pair *pair = &run->pairs[i % run->count];
        if (left_out == 0 || i < run->first + ENDS || i >= run->past - ENDS)
            printf("  report %u, minute %lu, size %u\n", (unsigned)i, minute, (unsigned)pair->size);
        else if (i == run->first + ENDS)
            printf("  (%u reports more)\n", (unsigned)left_out);
        minute += pair->gap;
    }
}

/* The fewest reports that show a 15, what they hold, and what is allowed. */
static void tell_full(const struct run *run, unsigned records, unsigned minutes)
{
    tell_reports(run);
    printf("records in minutes %lu to %lu: %lu; allowed in any %u minutes: at most %u\n", minute_of(run, run->first),
           minute_of(run, run->past - 1), records_of(run), minutes, records);
}

/* The fewest reports that show a 16, between the two before and after them, what they hold, and what is required. */
static void tell_thin(const struct run *run, unsigned records, unsigned minutes)
{
    unsigned long before = minute_of(run, run->first - 1), after = minute_of(run, run->past);
    printf("  report %u, minute %lu, is before them\n", (unsigned)run->first - 1, before);
    tell_reports(run);
    printf("  report %u, minute %lu, is after them\n", (unsigned)run->past, after);
    printf("records in minutes %lu to %lu: %lu; required in any %u minutes: at least %u\n", before + 1, after - 1,
           records_of(run), minutes, records);
}

/* After a refusal 15 or 16 of a cycle that was read: the least that shows it. Where it takes delays to break the rule, nothing is told, as
 * no reports show it on time. `when` says so where they might be late. */
static void tell_stretch(const struct bytes *spec, struct maxeltu_bytes cycle, uint32_t refusal, const char *when)
{
    struct run run;
    uint32_t reports, read = maxeltu_read_cycle(cycle.at, cycle.length, run.pairs, MAXELTU_MAX_PAIRS, &run.count);
    if (read != MAXELTU_OK ||
        maxeltu_shortest_stretch(spec->at, spec->length, run.pairs, run.count, &run.first, &reports) != refusal)
        return;
    /* The rates stand behind the bit map, the sizes and the gaps, the demand rate behind the supply rate if there is one: bit 2. */
    bool thin = refusal == MAXELTU_TOO_THIN;
    const uint8_t *rate = spec->at + (thin && spec->at[0] & 4 ? 13 : 9);
    unsigned records = rate[0] * 256u + rate[1], minutes = rate[2] * 256u + rate[3];
    run.first += thin; /* that of a 16 is the report before them */
    run.past = run.first + reports;
    printf("the fewest reports that show it%s, with minutes from the start of the round (reports: %u, minutes: %lu):\n", when,
           (unsigned)run.count, minute_of(&run, run.count));
    (thin ? tell_thin : tell_full)(&run, records, minutes);
}

/* Judges a cycle's file. With minutes, 0 too, the answer is told in the words for late reports: so null stands for none. */
static int judge(const struct bytes *spec, struct maxeltu_bytes cycle, const uint32_t *minutes)
{
    uint32_t refusal = minutes ? late_verdict(spec, cycle, *minutes)
                               : maxeltu_verdict(spec->at, spec->length, cycle.at, cycle.length);
    int status = minutes ? tell_late(refusal, *minutes) : tell(refusal);
    if (refusal == MAXELTU_TOO_FULL || refusal == MAXELTU_TOO_THIN)
        tell_stretch(spec, cycle, refusal, minutes ? " on time" : "");
    return status;
}

/* Judges the cycle of the file in force. The specification is judged after the choice, which hangs on the two files alone. */
static int judge_dated(const struct bytes *spec, const struct bytes *first, const struct bytes *second, const uint32_t *minutes)
{
    uint32_t which, refusal = maxeltu_in_force(first->at, first->length, second->at, second->length, &which);
    if (refusal == MAXELTU_OK) {
        printf("the %s file is in force: ", which == 1 ? "first" : "second");
        return judge(spec, maxeltu_part_in_force(first->at, first->length, second->at, second->length), minutes);
    }
    /* 29 is of both files. Every other number is the first one's, as neither can be read. */
    if (refusal != MAXELTU_SAME_DAY)
        fputs("neither file can be read; of the first: ", stdout);
    return tell(refusal);
}

/* Reads the files of these names; complains and answers nonzero where one fails. */
static int read_files(char **names, int count, struct bytes *files)
{
    int read = 0;
    while (read < count && !read_file(names[read], &files[read]))
        read++;
    return read < count;
}

int main(int argc, char **argv)
{
    struct bytes files[3] = { { NULL, 0 }, { NULL, 0 }, { NULL, 0 } }; /* the specification, the cycle or two dated ones */
    bool dated = argc > 1 && strcmp(argv[1], "--dated") == 0;
    int first = dated ? 2 : 1, count = dated ? 3 : 2, end = first + count;
    uint32_t minutes = 0, *late = argc == end + 1 ? &minutes : NULL;
    int status = EXIT_UNREADABLE;
    if (argc != end && !(late && read_minutes(argv[end], late)))
        fputs("usage: loader SPECIFICATION CYCLE [MINUTES]\n"
              "       loader --dated SPECIFICATION FIRST SECOND [MINUTES]\n",
              stderr);
    else if (!read_files(argv + first, count, files))
        status = dated ? judge_dated(&files[0], &files[1], &files[2], late)
                       : judge(&files[0], (struct maxeltu_bytes){ files[1].at, files[1].length }, late);
    for (int i = 0; i < 3; i++)
        free(files[i].at);
    return status;
}
