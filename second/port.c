/* The service port of request #107, over the second program's arbiter. */
#include "port.h"

static size_t answer_line(struct Port *p, struct Arbiter *a, char *text)
{
    static struct Reply record[REQUESTS];
    struct Replies replies = {.record = record, .capacity = REQUESTS};
    struct Answer answer = log_malformed();
    struct Frame f;

    if (log_decode(p->line, p->started, &f)) {
        if (a != NULL) {
            answer = arbiter_call_shown(a, p->display, &f, &replies);
        } else {
            answer.error = REFUSED_UNSOUND;
            answer.key = f.key;
        }
    }
    p->started = 0;
    return log_spell(text, &replies, &answer);
}

size_t port_feed(struct Port *p, struct Arbiter *a, const char *fragment, size_t length, char *text, size_t *written)
{
    *written = 0;
    for (size_t i = 0; i < length; i++) {
        if (fragment[i] == '\n') {
            *written = answer_line(p, a, text);
            return i + 1;
        }
        /* "An overlong line (more than 526 characters) is malformed however it was cut" */
        if (p->started < PORT_LINE)
            p->line[p->started++] = fragment[i];
    }
    return length;
}

void port_end(struct Port *p, struct Arbiter *a, char *text, size_t *written)
{
    *written = p->started == 0 ? 0 : answer_line(p, a, text);
}
