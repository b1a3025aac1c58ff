#include "options.h"

#include <errno.h>
#include <stdbool.h>
#include <stdio.h>
#include <stdlib.h>
#include <string.h>

static _Noreturn void refuse(const char *word)
{
    fprintf(stderr, "not an option: %s\n", word);
    exit(2);
}

/* The value behind `name=`, or null where the word is another option. */
static const char *value_of(const char *word, const char *name)
{
    size_t length = strlen(name);

    if (strncmp(word, name, length) != 0 || word[length] != '=')
        return NULL;
    return word + length + 1;
}

static void set_number(const struct number_option *option, const char *value)
{
    char *end;

    errno = 0;
    *option->value = strtoull(value, &end, 10);
    if (errno == 0 && end != value && *end == 0 && *option->value >= option->least
        && *option->value <= option->most)
        return;
    fprintf(stderr, "%s=%s: a number from %llu to %llu is wanted\n", option->name, value,
            (unsigned long long)option->least, (unsigned long long)option->most);
    exit(2);
}

static bool read_number(const char *word, const struct number_option *numbers)
{
    for (; numbers->name != NULL; numbers++) {
        const char *value = value_of(word, numbers->name);
        if (value != NULL) {
            set_number(numbers, value);
            return true;
        }
    }
    return false;
}

static bool read_text(const char *word, const struct text_option *texts)
{
    for (; texts->name != NULL; texts++) {
        const char *value = value_of(word, texts->name);
        if (value != NULL) {
            *texts->value = value;
            return true;
        }
    }
    return false;
}

void read_options(int count, char **words, int first, const struct number_option *numbers,
                  const struct text_option *texts)
{
    for (int at = first; at < count; at++)
        if (!read_number(words[at], numbers) && !read_text(words[at], texts))
            refuse(words[at]);
}
