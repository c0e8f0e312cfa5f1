/*
 * pdo: a schedule as text to a schedule file, and back.
 *
 *   strip 2 divide 1 parties 2        the first line
 *   start 0 right push 7              party, side, operation, order; a pop has no order
 *   step 0 hint 2                     a step without a hint has hint 0
 *   withdraw 1
 *   entry 3 0 0 0 9                   any other entry: act, party, operation, zero byte, number
 *
 * Empty lines and what stands after # are passed over. An error names the line and the word.
 */
#include <stdint.h>
#include <stdio.h>
#include <stdlib.h>
#include <string.h>

enum { HEADER = 10, ENTRY = 8, MOST_WORDS = 8, MOST_LINE = 256 };

static const char *const sides_and_operations[] = {"right push", "right pop", "left push", "left pop"};

/* A line of the text, taken apart. */
struct line {
    unsigned number;
    int count;
    char *word[MOST_WORDS];
};

static void fail(const struct line *line, const char *word, const char *what) {
    fprintf(stderr, "pdo: line %u: %s: %s\n", line->number, word, what);
    exit(1);
}

static const char *word_at(const struct line *line, int i, const char *wanted) {
    if (i >= line->count) {
        fail(line, "end of line", wanted);
    }
    return line->word[i];
}

static void expect(const struct line *line, int i, const char *word) {
    if (strcmp(word_at(line, i, word), word) != 0) {
        fail(line, line->word[i], word);
    }
}

static uint32_t number_at(const struct line *line, int i, uint32_t most, const char *wanted) {
    const char *word = word_at(line, i, wanted);
    char *end;
    unsigned long long n = strtoull(word, &end, 10);
    if (word[0] < '0' || word[0] > '9' || *end != '\0' || strlen(word) > 10 || n > most) {
        fail(line, word, wanted);
    }
    return (uint32_t)n;
}

static void end_at(const struct line *line, int i) {
    if (i < line->count) {
        fail(line, line->word[i], "nothing more is wanted on this line");
    }
}

static void put(uint32_t number, int width) {
    for (int i = 0; i < width; i++) {
        putchar((int)(number >> (8 * i) & 0xff));
    }
}

static void put_entry(uint32_t act, uint32_t party, uint32_t operation, uint32_t zero, uint32_t number) {
    put(act, 1);
    put(party, 1);
    put(operation, 1);
    put(zero, 1);
    put(number, 4);
}

static void header(const struct line *line) {
    expect(line, 0, "strip");
    uint32_t max = number_at(line, 1, 65535, "MAX");
    expect(line, 2, "divide");
    uint32_t divide = number_at(line, 3, 65535, "a divide");
    expect(line, 4, "parties");
    uint32_t parties = number_at(line, 5, 255, "a number of parties");
    end_at(line, 6);
    fputs("PDO", stdout);
    put(1, 2);
    put(parties, 1);
    put(max, 2);
    put(divide, 2);
}

static void start(const struct line *line) {
    uint32_t party = number_at(line, 1, 255, "a party");
    const char *side = word_at(line, 2, "right or left");
    const char *operation = word_at(line, 3, "push or pop");
    int left = strcmp(side, "left") == 0, pop = strcmp(operation, "pop") == 0;
    if (!left && strcmp(side, "right") != 0) {
        fail(line, side, "right or left");
    }
    if (!pop && strcmp(operation, "push") != 0) {
        fail(line, operation, "push or pop");
    }
    /* a pop may be given a number too: the run refuses it */
    uint32_t order = pop && line->count == 4 ? 0 : number_at(line, 4, UINT32_MAX, "an order");
    end_at(line, pop && line->count == 4 ? 4 : 5);
    put_entry(0, party, (uint32_t)(2 * left + pop), 0, order);
}

static void step(const struct line *line) {
    uint32_t party = number_at(line, 1, 255, "a party"), hint = 0;
    if (line->count > 2) {
        expect(line, 2, "hint");
        hint = number_at(line, 3, UINT32_MAX, "a hint");
        end_at(line, 4);
    }
    put_entry(1, party, 0, 0, hint);
}

static void withdraw(const struct line *line) {
    uint32_t party = number_at(line, 1, 255, "a party");
    end_at(line, 2);
    put_entry(2, party, 0, 0, 0);
}

static void entry(const struct line *line) {
    uint32_t byte[4];
    for (int i = 0; i < 4; i++) {
        byte[i] = number_at(line, 1 + i, 255, "a byte");
    }
    uint32_t number = number_at(line, 5, UINT32_MAX, "a number");
    end_at(line, 6);
    put_entry(byte[0], byte[1], byte[2], byte[3], number);
}

static void act(const struct line *line) {
    const char *word = line->word[0];
    if (strcmp(word, "start") == 0) {
        start(line);
    } else if (strcmp(word, "step") == 0) {
        step(line);
    } else if (strcmp(word, "withdraw") == 0) {
        withdraw(line);
    } else if (strcmp(word, "entry") == 0) {
        entry(line);
    } else {
        fail(line, word, "start, step, withdraw or entry");
    }
}

static void take_apart(struct line *line, char *text) {
    text[strcspn(text, "#\n")] = '\0';
    line->count = 0;
    for (char *word = strtok(text, " \t\r"); word != NULL; word = strtok(NULL, " \t\r")) {
        if (line->count == MOST_WORDS) {
            fail(line, word, "nothing more is wanted on this line");
        }
        line->word[line->count++] = word;
    }
}

static void from_text(FILE *in) {
    char text[MOST_LINE];
    struct line line = {0, 0, {NULL}};
    int begun = 0;
    while (fgets(text, sizeof text, in) != NULL) {
        line.number++;
        if (strlen(text) == sizeof text - 1) {
            fail(&line, "this line", "is too long");
        }
        take_apart(&line, text);
        if (line.count > 0) {
            (begun ? act : header)(&line);
            begun = 1;
        }
    }
    if (!begun) {
        fail(&line, "end of text", "strip");
    }
}

static uint32_t get(const unsigned char *bytes, int width) {
    uint32_t number = 0;
    for (int i = width; i > 0; i--) {
        number = number << 8 | bytes[i - 1];
    }
    return number;
}

static void entry_text(const unsigned char *e) {
    uint32_t number = get(e + 4, 4);
    int plain = e[3] == 0 && (e[0] == 0 || e[2] == 0);
    if (plain && e[0] == 0 && e[2] < 4) {
        printf("start %u %s", e[1], sides_and_operations[e[2]]);
        if (e[2] % 2 == 0 || number != 0) {
            printf(" %lu", (unsigned long)number);
        }
        putchar('\n');
    } else if (plain && e[0] == 1) {
        printf("step %u hint %lu\n", e[1], (unsigned long)number);
    } else if (plain && e[0] == 2 && number == 0) {
        printf("withdraw %u\n", e[1]);
    } else {
        printf("entry %u %u %u %u %lu\n", e[0], e[1], e[2], e[3], (unsigned long)number);
    }
}

static void to_text(FILE *in) {
    unsigned char bytes[HEADER];
    size_t got = fread(bytes, 1, HEADER, in);
    if (got != HEADER || memcmp(bytes, "PDO\1", 5) != 0) {
        fputs("pdo: this is no schedule file of version 1\n", stderr);
        exit(1);
    }
    printf("strip %u divide %u parties %u\n", (unsigned)get(bytes + 6, 2), (unsigned)get(bytes + 8, 2), bytes[5]);
    while ((got = fread(bytes, 1, ENTRY, in)) == ENTRY) {
        entry_text(bytes);
    }
    if (got != 0) {
        fprintf(stderr, "pdo: %u bytes are left over after the last entry\n", (unsigned)got);
        exit(1);
    }
}

int main(int count, char **word) {
    int back = count > 1 && strcmp(word[1], "--text") == 0;
    const char *name = count > 1 + back ? word[1 + back] : NULL;
    if (count > 2 + back) {
        fputs("usage: pdo [--text] [FILE]\n", stderr);
        return 2;
    }
    FILE *in = name == NULL ? stdin : fopen(name, "rb");
    if (in == NULL) {
        fprintf(stderr, "pdo: %s cannot be read\n", name);
        return 1;
    }
    (back ? to_text : from_text)(in);
    return 0;
}
