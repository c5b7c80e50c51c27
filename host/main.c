/* The program that ./shelf runs: options, then each file. */
#include <errno.h>
#include <gelf.h>
#include <signal.h>
#include <stdlib.h>
#include <string.h>

#include "shelf.h"

static _Noreturn void wrong(const char *what, const char *word)
{
    say("%s%s; see shelf --help", what, word);
    exit(USAGE);
}

/* The number of an option; `wants` says what is missing without one. */
static uint64_t number_of(const char *wants, const char *word)
{
    char *end = NULL;
    if (word == NULL)
        wrong(wants, "");
    errno = 0;
    unsigned long long number = strtoull(word, &end, 0);
    if (errno != 0 || *word < '0' || *word > '9' || *end != '\0') {
        say("%s, decimal or 0x.., not %s; see shelf --help", wants, word);
        exit(USAGE);
    }
    return number;
}

/* Whether a word is an option whose number follows behind `=` or in the next word. */
static bool is_numbered(const char *word, const char *option)
{
    size_t length = strlen(option);
    return strncmp(word, option, length) == 0 && (word[length] == '\0' || word[length] == '=');
}

/* Takes the word at `i` as an option; answers how many words that were, 0 for none. */
static int take_option(struct options *options, char **words, int i)
{
    const char *word = words[i], *same = strchr(word, '=');
    const char *number = same != NULL ? same + 1 : words[i + 1];
    int taken = 1;
    if (strcmp(word, "--names") == 0)
        options->names = true;
    else if (strcmp(word, "--values") == 0)
        options->values = true;
    else if (strcmp(word, "--offsets") == 0)
        options->offsets = true;
    else if (strcmp(word, "--json") == 0)
        options->json = true;
    else if (strcmp(word, "--sheet") == 0)
        options->sheet = true;
    else if (is_numbered(word, "--unit")) {
        options->one_unit = true;
        options->unit = number_of("--unit wants an offset", number);
        taken = same != NULL ? 1 : 2;
    } else if (is_numbered(word, "--page")) {
        options->sheet = options->one_page = true;
        options->page = number_of("--page wants a number", number);
        taken = same != NULL ? 1 : 2;
    } else
        taken = 0;
    return taken;
}

/* Takes the options out of the words and moves the files to the front; answers how many there are. */
static int take_words(struct options *options, int count, char **words)
{
    int files = 0;
    bool only_files = false;
    for (int i = 1; i < count;) {
        int taken = only_files || words[i][0] != '-' ? 0 : take_option(options, words, i);
        if (taken != 0) {
            i += taken;
            continue;
        }
        if (only_files || words[i][0] != '-')
            words[files++] = words[i];
        else if (strcmp(words[i], "--") == 0)
            only_files = true;
        else
            wrong("unknown option ", words[i]);
        i++;
    }
    return files;
}

int main(int count, char **words)
{
    struct options options = {.sheet = false};
    int files = take_words(&options, count, words);
    enum status first = LISTED;
    if (options.sheet && (options.names || options.values || options.offsets || options.json))
        wrong("--sheet and --page do not go with --names, --values, --offsets and --json", "");
    if (files == 0)
        wrong("no file given", "");
    signal(SIGPIPE, SIG_IGN);
    if (elf_version(EV_CURRENT) == EV_NONE)
        wrong("libelf is too old", "");
    for (int i = 0; i < files; i++) {
        enum status status = list_file(&options, words[i], files == 1);
        if (first == LISTED)
            first = status;
    }
    out_end();
    return (int)first;
}
