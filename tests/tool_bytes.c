/* The tool's six commands on any bytes: files named by the arguments, the same damaged, and drawn bytes, lists and lines. What a command prints and
 * answers is held to the calls of the library. Built with the tool's files and sanitizers; the first argument is a directory, which gets some drawings,
 * and some lists that another test can go on with.
 *   tool_bytes DIRECTORY FILE ..
 */
#define _POSIX_C_SOURCE 200809L
#include <stdio.h>
#include <stdlib.h>
#include <string.h>

#include "../tools/svg.h"
#include "../tools/tool.h"
#include "shared.h"

const char *const test_name = "tool";

/* Inputs of each sort; drawings that are kept, lists, and long lists, of which not all events are drawn. */
enum { DAMAGED = 6, DRAWN_INPUTS = 6000, KEPT_DRAWINGS = 150, KEPT_LISTS = 30, KEPT_LONG = 5, LONGEST_SHORT = 400, LONG = 300 };

/* What a command has printed, and its exit status. */
struct printed {
    char *out, *err;
    size_t out_length, err_length;
    int status;
};

/* What the library makes of a list; of one without a world, or of lines that are none, the answer alone counts. */
struct played {
    uint8_t world[QC_WORLD_BYTES], store[QC_STORE_BYTES];
    struct answer answer;
    uint32_t events;
    int has_world;
};

typedef int command(const struct input *input, FILE *out, FILE *err);

static struct input input;
static const char *directory;
static int keeping; /* are drawn lists kept? */
static unsigned inputs, worlds, refusals, typed, events, drawings, lists, long_lists;

/* A number from least to most, the same ones in every run. */
static unsigned draw(unsigned least, unsigned most)
{
    static uint64_t random = 18;
    random = random * 6364136223846793005u + 1442695040888963407u;
    return least + (unsigned)(random >> 33) % (most - least + 1);
}

/* Plays a list. 1 to 5 and 21 are for its length and header. */
static void play(struct played *played, const struct list *list)
{
    uint8_t result[QC_RESULT_BYTES] = {0};
    const uint32_t number = qc_play_list(list->bytes, list->length, played->store, sizeof played->store, played->world, sizeof played->world, result,
                                         sizeof result);

    played->answer.number = number;
    played->answer.place = qc_result_place(result);
    played->events = qc_result_events(result);
    played->has_world = number != 21 && (number == 0 || number > 5);
}

static struct printed run(command *command)
{
    struct printed printed = {NULL, NULL, 0, 0, 0};
    FILE *out = open_memstream(&printed.out, &printed.out_length), *err = open_memstream(&printed.err, &printed.err_length);

    if (out == NULL || err == NULL)
        exit(1);
    printed.status = command(&input, out, err);
    fclose(out);
    fclose(err);
    return printed;
}

static void forget(struct printed printed)
{
    free(printed.out);
    free(printed.err);
}

static unsigned lines_in(const char *text, size_t length)
{
    unsigned lines = 0;

    while (length > 0)
        lines += text[--length] == '\n';
    return lines;
}

/* Text that must stand at a place. */
static void expect_text(const char *what, const char *at, const char *wanted)
{
    expect(what, strncmp(at, wanted, strlen(wanted)) == 0, 1);
}

/* The last line of a text that ends with a line feed. */
static const char *last_line(const char *text, size_t length)
{
    expect("its end", length > 0 && text[length - 1] == '\n', 1);
    for (length--; length > 0 && text[length - 1] != '\n'; length--)
        ;
    return text + length;
}

/* A refusal in words: its number and place, and a reason. */
static void expect_reason(const char *line, struct answer answer)
{
    char wanted[60];

    snprintf(wanted, sizeof wanted, "refused %u at %lu: ", (unsigned)answer.number, (unsigned long)answer.place);
    expect_text("the refusal", line, wanted);
    expect("a reason", strlen(line) > strlen(wanted) + 5, 1);
}

/* Standard error has one line where a command is refused, and none else. */
static void expect_errors(struct printed printed, struct answer answer)
{
    expect("status", (unsigned)printed.status, answer.number == QC_ACCEPTED ? DONE : REFUSED);
    expect("lines of standard error", lines_in(printed.err, printed.err_length), answer.number != QC_ACCEPTED);
    if (answer.number != QC_ACCEPTED)
        expect_reason(last_line(printed.err, printed.err_length), answer);
}

/* The report that the library writes, or the refusal alone. */
static void check_play(const struct played *played)
{
    const struct printed printed = run(run_play);
    const struct answer answer = played->answer;
    uint8_t text[QC_REPORT_BYTES], result[QC_RESULT_BYTES] = {0};
    size_t length = (size_t)snprintf((char *)text, sizeof text, "refused %u at %lu\n", (unsigned)answer.number, (unsigned long)answer.place);

    expect_errors(printed, answer);
    if (played->has_world) {
        expect("report", qc_report(played->world, QC_WORLD_BYTES, played->events, answer.number, answer.place, text, sizeof text, result, sizeof result), 0);
        length = (size_t)qc_result_length(result);
    }
    expect("report's length", printed.out_length, length);
    expect_same("report", (const uint8_t *)printed.out, text, length);
    forget(printed);
}

/* Two lines before the events, a line for each, and the stop. */
static void check_trace(const struct played *played)
{
    const struct printed printed = run(run_trace);
    const struct answer answer = played->answer;
    char wanted[60];

    expect("status", (unsigned)printed.status, answer.number == QC_ACCEPTED ? DONE : REFUSED);
    expect("standard error", printed.err_length, 0);
    expect("lines", lines_in(printed.out, printed.out_length), played->has_world ? played->events + 3 : 1);
    snprintf(wanted, sizeof wanted, "end %lu: ", (unsigned long)answer.place);
    if (answer.number != QC_ACCEPTED)
        expect_reason(last_line(printed.out, printed.out_length), answer);
    else
        expect_text("the stop", last_line(printed.out, printed.out_length), wanted);
    forget(printed);
}

static void keep(const char *ending, unsigned number, const void *bytes, size_t length)
{
    char name[400];
    FILE *file;

    snprintf(name, sizeof name, "%s/%u.%s", directory, number, ending);
    file = fopen(name, "wb");
    if (file == NULL || fwrite(bytes, 1, length, file) != length || fclose(file) != 0)
        exit(1);
}

/* Lists with a world, and long ones. */
static void keep_list(const struct played *played, const struct list *list)
{
    if (played->events > LONG && long_lists < KEPT_LONG)
        keep("long", long_lists++, list->bytes, list->length);
    if (played->events <= LONG && lists < KEPT_LISTS && draw(1, 40) == 1)
        keep("bin", lists++, list->bytes, list->length);
}

/* Of a day that is not drawn whole standard error says so first. */
static struct printed without_cut(struct printed printed, const struct played *played)
{
    char wanted[60];

    if (!played->has_world || played->events <= LONG)
        return printed;
    snprintf(wanted, sizeof wanted, "the first 300 of %u events are drawn\n", (unsigned)played->events);
    expect_text("what is drawn", printed.err, wanted);
    memmove(printed.err, printed.err + strlen(wanted), printed.err_length - strlen(wanted) + 1);
    printed.err_length -= strlen(wanted);
    return printed;
}

/* A whole picture where there is a world, and nothing else. */
static void check_draw(const struct played *played)
{
    const struct printed printed = without_cut(run(run_draw), played);

    expect_errors(printed, played->answer);
    if (!played->has_world) {
        expect("a drawing", printed.out_length, 0);
    } else {
        expect_text("the beginning", printed.out, "<?xml ");
        expect_text("the end", last_line(printed.out, printed.out_length), "</svg>\n");
    }
    if (played->has_world && drawings < KEPT_DRAWINGS && draw(1, 20) == 1)
        keep("svg", drawings++, printed.out, printed.out_length);
    forget(printed);
}

/* A command that writes what a call has written, or nothing. */
static void check_written(command *command, struct answer answer, const uint8_t *written, size_t length)
{
    const struct printed printed = run(command);

    expect_errors(printed, answer);
    expect("length written", printed.out_length, answer.number == QC_ACCEPTED ? length : 0);
    expect_same("what is written", (const uint8_t *)printed.out, written, printed.out_length);
    forget(printed);
}

typedef uint32_t writer(const uint8_t *from, size_t from_length, uint8_t *to, size_t to_length, uint8_t *result, size_t result_length);

/* By a call of the library; of a text that is too long to be read it is told before. */
static struct answer check_call(command *command, writer *write, int too_long)
{
    static uint8_t written[QC_TEXT_BYTES];
    uint8_t result[QC_LINES_RESULT_BYTES] = {0};
    struct answer answer = {QC_LIST_LONG, 0};

    if (!too_long) {
        answer.number = write(input.bytes, input.length, written, sizeof written, result, sizeof result);
        answer.place = (size_t)qc_lines_place(result);
    }
    check_written(command, answer, written, (size_t)qc_lines_length(result));
    return answer;
}

/* The list of the input, and 1; or 0 where it is lines that are refused. */
static int take_list(struct list *list)
{
    static uint8_t bytes[QC_LIST_BYTES];
    uint8_t result[QC_LINES_RESULT_BYTES] = {0};
    const int is_text = input.length > 0 && input.bytes[0] >= 32 && input.bytes[0] <= 126;

    memset(list, 0, sizeof *list);
    list->bytes = input.bytes;
    list->length = input.length;
    if (!is_text)
        return 1;
    if (input.length > INPUT_BYTES || qc_read_lines(input.bytes, input.length, bytes, sizeof bytes, result, sizeof result) != QC_ACCEPTED)
        return 0;
    list->bytes = bytes;
    list->length = (size_t)qc_lines_length(result);
    list->text = input.bytes;
    return 1;
}

/* All six on the input. */
static void check_input(void)
{
    static struct played played;
    const struct answer as_lines = check_call(run_list, qc_read_lines, input.length > INPUT_BYTES);
    struct list list;

    check_call(run_lines, qc_write_lines, 0);
    check_call(run_convert, qc_convert, 0);
    if (take_list(&list)) {
        play(&played, &list);
    } else {
        played.answer = as_lines;
        played.has_world = 0;
    }
    check_play(&played);
    check_trace(&played);
    check_draw(&played);
    if (keeping && played.has_world && list.text == NULL)
        keep_list(&played, &list);
    inputs++;
    worlds += (unsigned)played.has_world;
    refusals += played.answer.number != QC_ACCEPTED;
    typed += (unsigned)(played.has_world && list.text != NULL);
    events += played.has_world ? played.events : 0;
}

static void put(unsigned byte)
{
    if (input.length <= INPUT_BYTES)
        input.bytes[input.length++] = (uint8_t)byte;
}

static void put_words(const char *text)
{
    for (; *text != 0; text++)
        put((unsigned char)*text);
}

/* Bytes of any sort. */
static void draw_bytes(void)
{
    unsigned left = draw(0, LONGEST_SHORT);

    for (; left > 0; left--)
        put(draw(0, 255));
}

static void put_number16(unsigned number)
{
    put(number & 255);
    put(number >> 8);
}

/* The sites below n that are willing: mostly all. */
static void put_willing(unsigned n)
{
    put_number16(((1u << n) - 1) & (draw(0, 3) == 0 ? draw(0, 65535) : 65535));
}

static void put_first_header(unsigned n)
{
    put(n);
    put(n - 1);
    put(n - 1);
    put_willing(n);
}

/* The last site weighs 1, the others 2; or all weigh 1. */
static void put_second_header(unsigned n, unsigned heaviest)
{
    const unsigned quorum = heaviest == 1 ? n - 1 : 2 * n - 3;
    unsigned site;

    put(QC_SECOND_EDITION);
    put(n);
    put_number16(quorum);
    put_number16(quorum);
    put_willing(n);
    for (site = 0; site + 1 < n; site++)
        put(heaviest);
    put(1);
}

/* A header that is accepted, of either edition. */
static void draw_header(unsigned n)
{
    if (draw(0, 2) == 0)
        put_second_header(n, draw(1, 2));
    else
        put_first_header(n);
}

/* A command that may well be accepted where so many messages have been sent: mostly deliveries, half of them of the first few. */
static void draw_command(unsigned n, unsigned messages)
{
    static const uint8_t commands[] = {QC_DELIVER, QC_DELIVER, QC_DELIVER, QC_DELIVER, QC_DELIVER, QC_DELIVER, QC_TIMEOUT, QC_TIMEOUT, QC_CRASH, QC_RECOVER};
    const uint8_t command = commands[draw(0, sizeof commands - 1)];

    put(command);
    if (command == QC_DELIVER)
        put_number16(draw(0, messages > 4 && draw(0, 1) == 0 ? 4 : messages));
    put(draw(0, 200) == 0 ? n : draw(0, n - 1));
}

/* A list whose commands are tried one by one: those that would stop it are mostly left out. */
static void draw_list(unsigned most)
{
    static struct played played;
    struct list list = {input.bytes, 0, NULL, 0};
    const unsigned n = draw(3, 16);
    unsigned left = draw(0, most);
    size_t before;

    draw_header(n);
    put(QC_START);
    for (; left > 0; left--) {
        list.length = before = input.length;
        play(&played, &list);
        draw_command(n, qc_row_count(played.world));
        list.length = input.length;
        play(&played, &list);
        if (played.answer.number != QC_ACCEPTED && draw(0, 400) != 0)
            input.length = before;
    }
}

/* A line of lines, or nearly one. */
static void draw_line(void)
{
    static const char *const lines[] = {"start",  "deliver 0 1", "deliver 1 0", "deliver 0 2", "deliver 2 0", "timeout 0", "timeout 1", "crash 1",
                                        "crash 0", "recover 1",   "recover 0",  "deliver 65536 1", "start ",   "",          "crash <&\">", "timeout 01"};
    const unsigned whole = sizeof lines / sizeof lines[0] - 5, all = sizeof lines / sizeof lines[0];

    put_words(lines[draw(0, 60) == 0 ? draw(0, all - 1) : draw(0, whole - 1)]);
    put_words(draw(0, 80) == 0 ? "\r\n" : "\n");
}

static void draw_text(void)
{
    unsigned left = draw(0, 12);

    put_words(draw(0, 9) == 0 ? "sites 2 commit 2 abort 2 willing 3\n" : "sites 3 commit 2 abort 2 willing 7\n");
    for (; left > 0; left--)
        draw_line();
    if (draw(0, 15) == 0)
        input.length -= 1;
}

static void draw_input(unsigned k)
{
    input.length = 0;
    if (k % 100 == 0)
        draw_list(1600);
    else if (k % 4 == 0)
        draw_bytes();
    else if (k % 4 == 1)
        draw_text();
    else
        draw_list(60);
    input.bytes[input.length] = 0;
}

/* Some bytes of the input are others, or it ends sooner. */
static void damage(void)
{
    unsigned left = draw(0, 3);

    for (; left > 0 && input.length > 0; left--)
        input.bytes[draw(0, (unsigned)input.length - 1)] = (uint8_t)draw(0, 255);
    if (draw(0, 2) == 0)
        input.length = draw(0, (unsigned)input.length);
    input.bytes[input.length] = 0;
}

static void check_file(const char *name)
{
    unsigned k;

    snprintf(current, sizeof current, "%s", name);
    for (k = 0; k <= DAMAGED; k++) {
        if (read_input(&input, name) != DONE)
            exit(1);
        if (k > 0)
            damage();
        check_input();
    }
}

/* Inputs of edge lengths: so many bytes, all the same after a beginning. */
static void check_long(const char *beginning, unsigned byte, size_t length)
{
    snprintf(current, sizeof current, "%lu bytes of %u", (unsigned long)length, byte);
    input.length = 0;
    put_words(beginning);
    while (input.length < length)
        put(byte);
    input.bytes[input.length] = 0;
    check_input();
}

static void check_edges(void)
{
    const char *const header = "sites 3 commit 2 abort 2 willing 7\n";

    check_long("", 0, 0);
    check_long("", 10, 1);
    check_long("", 3, QC_LIST_BYTES);
    check_long("", 3, QC_LIST_BYTES + 1);
    check_long("\003\002\002", 1, QC_LIST_BYTES);
    check_long("\003\002\002", 1, INPUT_BYTES + 1);
    check_long(header, '\n', INPUT_BYTES);
    check_long(header, 's', INPUT_BYTES + 1);
    check_long("sites", 255, 5000);
}

/* Characters with a meaning in XML, which no list brings into a drawing today. */
static void check_escaped(void)
{
    const struct point at = {1, 2};
    char *text = NULL;
    size_t length = 0;
    FILE *out = open_memstream(&text, &length);

    if (out == NULL)
        exit(1);
    svg_text(out, "any", at, "<a & \"b\">");
    fclose(out);
    expect("escaped", strcmp(text, "<text class=\"any\" x=\"1\" y=\"2\">&lt;a &amp; &quot;b&quot;&gt;</text>\n") == 0, 1);
    free(text);
}

static void check_drawn(void)
{
    unsigned k;

    keeping = 1;
    for (k = 0; k < DRAWN_INPUTS; k++) {
        snprintf(current, sizeof current, "drawn input %u", k);
        draw_input(k);
        check_input();
    }
    keeping = 0;
}

int main(int count, char **words)
{
    int word;

    if (count < 2)
        return 1;
    directory = words[1];
    for (word = 2; word < count; word++)
        check_file(words[word]);
    check_drawn();
    check_edges();
    check_escaped();
    expect("enough worlds, refusals, typed lists and drawings", worlds > 4000 && refusals > 2000 && typed > 400 && drawings == KEPT_DRAWINGS, 1);
    expect("lists for another test", lists == KEPT_LISTS && long_lists == KEPT_LONG, 1);
    printf("tool: six commands on %u inputs, %u with a world, %u typed, %u refused, %u events\n", inputs, worlds, typed, refusals, events);
    return 0;
}
