/* Options of the command line, each a word `name=value`. */
#ifndef OPTIONS_H
#define OPTIONS_H

#include <stdint.h>

struct number_option {
    const char *name;
    uint64_t *value;
    uint64_t least;
    uint64_t most;
};

struct text_option {
    const char *name;
    const char **value;
};

/* Reads the words from `first` on; ends the program with a message where one isn't an option or
   its number is out of range. Both lists end with a name that is null. */
void read_options(int count, char **words, int first, const struct number_option *numbers,
                  const struct text_option *texts);

#endif
