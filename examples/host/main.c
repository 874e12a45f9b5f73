/* An example host, in C99 that is C++11 too: prints what the program `judge` prints, for a table file and a trace file named on the command
 * line. Beside a refused line it says on standard error which file, why and what to do. A file that cannot be read is named there, and
 * counts as empty. The exit status is as the commands have it: see `help`. */
#include <stdio.h>
#include <string.h>

#include "yulbravi.h"

static const char help[] =
    "usage: main TABLE TRACE\n"
    "Prints the verdict on each property of a table file for the recording in a trace file; one of them may be -, standard input.\n"
    "Exit status: 0 every property is settled, 1 one is broken, 3 none is broken and one is pending, 4 refused,\n"
    "2 not run: used wrongly, a file that is not there or cannot be read, output that could not be written.\n";

/* A file's bytes. The room is one byte more than may be: a file that is too long fills it, and is refused by its length. */
struct input {
    const char *name;
    uint8_t *bytes;
    size_t room;
    size_t length;
};

/* Whether the file was read; if not, the reason is told and it counts as empty. */
static int read_file(struct input *input)
{
    FILE *file = strcmp(input->name, "-") == 0 ? stdin : fopen(input->name, "rb");
    if (file != NULL) {
        input->length = fread(input->bytes, 1, input->room, file);
    }
    if (file == NULL || ferror(file)) {
        perror(input->name);
        input->length = 0;
    }
    int has_read = file != NULL && !ferror(file);
    if (file != NULL) {
        fclose(file);
    }
    return has_read;
}

/* The answers to all properties, and how many; or one refusal. */
static size_t judge_all(const struct input *table, const struct input *trace, uint64_t answers[YULBRAVI_PROPERTIES])
{
    answers[0] = yulbravi_check(table->bytes, table->length);
    if (answers[0] != 0) {
        return 1;
    }
    /* Every accepted table has a property 0, and what refuses a trace does so for each property. */
    answers[0] = yulbravi_judge(table->bytes, table->length, trace->bytes, trace->length, 0);
    if (yulbravi_kind(answers[0]) == YULBRAVI_REFUSED) {
        return 1;
    }
    for (uint32_t property = 1; property < yulbravi_properties(table->bytes); property++) {
        answers[property] = yulbravi_judge(table->bytes, table->length, trace->bytes, trace->length, property);
    }
    return yulbravi_properties(table->bytes);
}

static void print_answers(const uint64_t *answers, size_t count, const struct input *trace)
{
    static const char *const words[] = {"refused", "broken", "settled", "pending"};
    if (yulbravi_kind(answers[0]) == YULBRAVI_REFUSED) {
        printf("refused %u %u\n", yulbravi_number(answers[0]), yulbravi_place(answers[0]));
        return;
    }
    printf("cycles %u\n", (unsigned)yulbravi_cycles(trace->bytes));
    for (size_t property = 0; property < count; property++) {
        printf("%u %s %u\n", (unsigned)property, words[yulbravi_kind(answers[property])], (unsigned)yulbravi_cycle(answers[property]));
    }
}

/* Whether all of the output was written, which a full disk tells no later than when it is closed. */
static int close_output(void)
{
    int failed = ferror(stdout);
    if (fclose(stdout) != 0 || failed) {
        fputs("standard output could not be written\n", stderr);
        return 0;
    }
    return 1;
}

static void tell(const struct input *input, const char *what, const char *to_do)
{
    fprintf(stderr, "%s: %s\nwhat to do: %s\n", input->name, what, to_do);
}

/* Which file, why and what to do; of files that stand in each other's place just that. */
static void explain(uint64_t answer, const struct input *table, const struct input *trace)
{
    unsigned number = yulbravi_number(answer);
    const struct input *input = number == YULBRAVI_SIGNAL_UNDECLARED || number == YULBRAVI_TRACE_WRONG ? trace : table;
    if (number <= YULBRAVI_TABLE_LENGTH && yulbravi_is_trace(table->bytes, table->length)) {
        tell(table, YULBRAVI_TRACE_AS_TABLE, YULBRAVI_TRACE_AS_TABLE_TO_DO);
        return;
    }
    if (number == YULBRAVI_TRACE_WRONG && yulbravi_is_table(trace->bytes, trace->length)) {
        tell(trace, YULBRAVI_TABLE_AS_TRACE, YULBRAVI_TABLE_AS_TRACE_TO_DO);
        return;
    }
    if (yulbravi_place_is(number)[0] != '\0') {
        fprintf(stderr, "%s: %s %u\n", input->name, yulbravi_place_is(number), yulbravi_place(answer));
    }
    tell(input, yulbravi_what(number), yulbravi_to_do(number));
}

static int judge_files(const char *table_name, const char *trace_name)
{
    static uint8_t table_bytes[YULBRAVI_TABLE_BYTES + 1];
    static uint8_t trace_bytes[YULBRAVI_TRACE_BYTES + 1];
    struct input table = {table_name, table_bytes, sizeof table_bytes, 0};
    struct input trace = {trace_name, trace_bytes, sizeof trace_bytes, 0};
    int read_both = read_file(&table);
    read_both &= read_file(&trace);

    uint64_t answers[YULBRAVI_PROPERTIES];
    size_t count = judge_all(&table, &trace, answers);
    print_answers(answers, count, &trace);
    if (!close_output() || !read_both) {
        return YULBRAVI_EXIT_NOT_RUN;
    }
    int status = yulbravi_status(answers, count);
    if (status == YULBRAVI_EXIT_REFUSED) {
        explain(answers[0], &table, &trace);
    }
    return status;
}

int main(int argc, char **argv)
{
    if (argc == 2 && strcmp(argv[1], "--help") == 0) {
        fputs(help, stdout);
        return close_output() ? 0 : YULBRAVI_EXIT_NOT_RUN;
    }
    if (argc != 3 || argv[1][0] == '\0' || argv[2][0] == '\0' || (strcmp(argv[1], "-") == 0 && strcmp(argv[2], "-") == 0)) {
        fputs(help, stderr);
        return YULBRAVI_EXIT_NOT_RUN;
    }
    return judge_files(argv[1], argv[2]);
}
