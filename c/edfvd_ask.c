/* The guard between C and the proved library of commands: it refuses what the library's contracts take for granted. */
#include "edfvd.h"
#include <string.h>

/* A word as the library reads it: a slice is a pointer to its bytes, and then their number. */
typedef struct raw_word {
    const uint8_t *bytes;
    size_t length;
} raw_word;
_Static_assert(sizeof(raw_word) == 2 * sizeof(size_t) && offsetof(raw_word, bytes) == 0 && offsetof(raw_word, length) == sizeof(size_t),
               "a word is a pointer, and then a length");

/* The export of crates/edfvd_ask_c. No compiler compares these lines with its sources; declared.py does. */
extern uint32_t edfvd_raw_ask(const raw_word *words, size_t count, const uint8_t *first, size_t first_length,
                              const uint8_t *second, size_t second_length, uint8_t *out, size_t capacity, size_t *length,
                              uint32_t *exit_status);

/* The most words that a command has. More words name no command, and no words name none either. */
enum { MOST_WORDS = 5 };

edfvd_status edfvd_ask(size_t count, const char *const *words, const void *first, size_t first_length, const void *second,
                       size_t second_length, void *out, size_t capacity, size_t *length, uint32_t *exit_status) {
    static const uint8_t no_bytes[1];
    uint8_t no_buffer[1];
    raw_word given[MOST_WORDS];
    if (length == NULL || exit_status == NULL || (words == NULL && count != 0)) return EDFVD_NULL;
    if ((first == NULL && first_length != 0) || (second == NULL && second_length != 0) || (out == NULL && capacity != 0))
        return EDFVD_NULL;
    for (size_t place = 0; place < count && place < MOST_WORDS; place++) {
        if (words[place] == NULL) return EDFVD_NULL;
        given[place] = (raw_word){(const uint8_t *)words[place], strlen(words[place])};
    }
    return (edfvd_status)edfvd_raw_ask(given, count > MOST_WORDS ? 0 : count,
                                       first_length == 0 ? no_bytes : (const uint8_t *)first, first_length,
                                       second_length == 0 ? no_bytes : (const uint8_t *)second, second_length,
                                       capacity == 0 ? no_buffer : (uint8_t *)out, capacity, length, exit_status);
}
