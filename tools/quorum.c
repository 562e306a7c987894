/* quorum: lists of events played, told, drawn and written in other forms, over the calls of include/quorum.h. `make` builds it; quorum.1 is its page of
 * the manual.
 *
 * Exit status: 0 done; 1 the list was refused; 2 the arguments are wrong, or the input could not be read or the output not written.
 */
#include <string.h>

#include "tool.h"

struct command {
    const char *name;
    int (*run)(const struct input *input, FILE *out, FILE *err);
    const char *summary;
    const char *help;
};

static const struct command commands[] = {
    {"play", run_play, "play a list and print its report",
     "Plays a list, bytes or lines, to its end or to the first command that is refused, and prints\n"
     "the report: sizes and counts, a line for each site, and the end or the refusal. Why a list is\n"
     "refused is told in words on standard error.\n"},
    {"trace", run_trace, "play a list and tell each event in words",
     "Plays a list, bytes or lines, and prints a line for each event: its place in the list, the\n"
     "command, the site's log and what it knows after it; then in words what the message told the\n"
     "site, what the site was and is, what it wrote to its log and which message it sent to whom.\n"
     "The last line is the end, or why the list was refused.\n"},
    {"draw", run_draw, "play a list and draw it as a picture (SVG)",
     "Plays a list, bytes or lines, and writes a picture of it, a standalone SVG:\n"
     "\n"
     "    quorum draw day.txt > day.svg\n"
     "\n"
     "Time runs downwards, with a line for each site, an arrow for each message that is delivered and\n"
     "a short dashed stub for those that never are. Of a day with many hundred events the first ones\n"
     "are drawn; picture and standard error say so. Why a list is refused is told there too.\n"},
    {"lines", run_lines, "write a list as lines",
     "Writes a list of the first edition as lines, which can be read and changed in any editor.\n"},
    {"list", run_list, "read lines as a list",
     "Reads lines and writes them as a list of the first edition. A list has exactly one spelling:\n"
     "\n"
     "    sites 3 commit 2 abort 2 willing 7\n"
     "    start\n"
     "    deliver 0 1\n"
     "    timeout 0\n"
     "    crash 0\n"
     "    recover 0\n"
     "\n"
     "One blank between words, no noughts before a number, a line feed after each line.\n"},
    {"convert", run_convert, "write a list in the other edition",
     "Writes a list of the second edition, one with weights, in the first, where every site weighs\n"
     "1; any other list in the second edition, with a weight of 1 for each site.\n"},
};

enum { COMMANDS = sizeof commands / sizeof commands[0] };

/* The exit status, once all is written and standard output is closed. */
static int finished(int status)
{
    const int failed = ferror(stdout);

    if (fclose(stdout) == 0 && !failed)
        return status;
    return say_failed("standard output");
}

static void print_usage(FILE *to)
{
    unsigned k;

    fprintf(to, "usage: quorum COMMAND [FILE]\n\n");
    for (k = 0; k < COMMANDS; k++)
        fprintf(to, "  %-8s %s\n", commands[k].name, commands[k].summary);
    fprintf(to, "\nWithout FILE, or where it is -, standard input is read. 'quorum COMMAND --help' tells more,\n"
                "'quorum --version' the version. Exit status: 0 done, 1 the list was refused, 2 wrong arguments,\n"
                "or the input could not be read or the output not written.\n");
}

static int wrong_usage(const char *what, const char *word)
{
    fprintf(stderr, "quorum: %s '%s'; 'quorum --help' tells what there is\n", what, word);
    return FAILED;
}

static const struct command *command_named(const char *name)
{
    unsigned k;

    for (k = 0; k < COMMANDS; k++)
        if (strcmp(commands[k].name, name) == 0)
            return &commands[k];
    return NULL;
}

static int is_help(const char *word)
{
    return strcmp(word, "--help") == 0 || strcmp(word, "-h") == 0;
}

/* Is it an option, and not a file's name? - is standard input. */
static int is_option(const char *word)
{
    return word[0] == '-' && word[1] != 0;
}

static int run_command(const struct command *command, const char *name)
{
    static struct input input;

    if (read_input(&input, strcmp(name, "-") == 0 ? NULL : name) != DONE)
        return FAILED;
    return finished(command->run(&input, stdout, stderr));
}

/* Is one of these words, up to --, a call for help? */
static int wants_help(int count, char **words)
{
    int k;

    for (k = 0; k < count && strcmp(words[k], "--") != 0; k++)
        if (is_help(words[k]))
            return 1;
    return 0;
}

/* A command with the file that is named, or with standard input. */
static int run_named(const struct command *command, int count, char **names)
{
    if (count > 1)
        return wrong_usage("one file at most, and not also", names[1]);
    return run_command(command, count == 1 ? names[0] : "-");
}

/* A command's words after its name: --help, or at most one file, with -- before a name that begins with -. */
static int run_words(const struct command *command, int count, char **words)
{
    if (wants_help(count, words)) {
        printf("usage: quorum %s [FILE]\n\n%s", command->name, command->help);
        return finished(DONE);
    }
    if (count > 0 && strcmp(words[0], "--") == 0)
        return run_named(command, count - 1, words + 1);
    if (count > 0 && is_option(words[0]))
        return wrong_usage("no option", words[0]);
    return run_named(command, count, words);
}

int main(int count, char **words)
{
    const struct command *command;

    if (count < 2) {
        print_usage(stderr);
        return FAILED;
    }
    if (is_help(words[1])) {
        print_usage(stdout);
        return finished(DONE);
    }
    if (strcmp(words[1], "--version") == 0 && count == 2) {
        printf("quorum %d.%d\n", QC_VERSION_MAJOR, QC_VERSION_MINOR);
        return finished(DONE);
    }
    command = command_named(words[1]);
    if (command == NULL)
        return wrong_usage(is_option(words[1]) ? "no option, or not here," : "no command", words[1]);
    return run_words(command, count - 2, words + 2);
}
