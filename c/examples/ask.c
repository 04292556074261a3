/* Each command in process: the words of the command line, bytes in and bytes out, and no file system. */
#include "edfvd.h"
#include <stdio.h>
#include <stdlib.h>
#include <string.h>

static const char tasks[] =
    "[[task]]\nname = \"ctl\"\nlevel = \"high\"\nperiod = 10\nlow = 2\nhigh = 6\n\n"
    "[[task]]\nname = \"log\"\nlevel = \"low\"\nperiod = 10\nlow = 5\n";

static int ask(size_t count, const char *const *words, const char *second) {
    size_t room = 0, length = 0;
    char *text = NULL;
    uint32_t ended = 0;
    edfvd_status status;
    while ((status = edfvd_ask(count, words, tasks, strlen(tasks), second, second == NULL ? 0 : strlen(second), text, room,
                               &length, &ended)) == EDFVD_SHORT_BUFFER) {
        char *more = realloc(text, length);
        if (more == NULL) break;
        text = more;
        room = length;
    }
    printf("$");
    for (size_t place = 0; place < count; place++) printf(" %s", words[place]);
    if (status == EDFVD_OK) {
        printf("   (exit status %u)\n%.*s", (unsigned)ended, (int)length, text);
    } else {
        printf("   refused: %s\n", edfvd_word(status));
    }
    free(text);
    return status == EDFVD_OK ? 0 : 1;
}

int main(void) {
    (void)ask(2, (const char *const[]){"check", "1"}, NULL);
    (void)ask(2, (const char *const[]){"stretch", "1"}, NULL);
    (void)ask(4, (const char *const[]){"run", "1", "2", "8"}, "task,release,need\nctl,0,3\nlog,0,1\n");
    (void)ask(3, (const char *const[]){"judge", "1", "2"},
              "event,tick,task,job,how\nrelease,0,ctl,1,kept\nrelease,0,log,1,kept\ntick,0,log,1,more\n");
    (void)ask(5, (const char *const[]){"judge", "1", "2", "1", "2"}, "event,tick,task,job,how\nrelease,0,ctl,1,kept\n");
    (void)ask(3, (const char *const[]){"partition", "1", "2"}, NULL);
    (void)ask(4, (const char *const[]){"accept", "1", "50", "8"}, NULL);
    (void)ask(2, (const char *const[]){"check", "2"}, "task = [");
    (void)ask(0, NULL, NULL);
    (void)ask(1, (const char *const[]){"nonsense"}, NULL);
    (void)ask(6, (const char *const[]){"judge", "1", "2", "1", "2", "3"}, NULL);
    (void)ask(7, (const char *const[]){"a", "b", "c", "d", "e", "f", "g"}, NULL);
    (void)ask(4, (const char *const[]){"soak", "1", "8", "100"}, NULL);
    (void)ask(2, (const char *const[]){"check", "\xff"}, NULL);
    return 0;
}
