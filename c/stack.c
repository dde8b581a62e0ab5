/* Prints how many bytes of stack each service takes for the networks in the named files, and the most of each. The
 * planner of candidates is given two edges of each network, and the planner of tables a table of it.
 *
 * A service is called on a thread of its own, whose stack is a buffer that was painted with one byte. The lowest byte
 * that has lost its paint afterwards is where the deepest call wrote, and what lies between it and the frame of the
 * thread's own function is what the service took. Nothing is assumed of frames or of the compiler; what a call keeps
 * free and never writes at the very end is not seen.
 *
 *     stack [--limit BYTES] FILE..
 *
 * Exit status: 0, 1 if a service takes more than the limit, 2 if nothing could be measured. */
#define _DEFAULT_SOURCE
#include "thinning.h"

#include <inttypes.h>
#include <pthread.h>
#include <stdio.h>
#include <stdlib.h>
#include <string.h>
#include <sys/mman.h>

/* Bytes of the painted stack. A service that needs more meets the guard page at its end and ends the program. */
#define STACK ((size_t)8 << 20)
#define GUARD ((size_t)4096)
#define PAINT 0xa5

/* How many edges are tried as the reserved one. With two, what a plan leaves on the stack below the next is seen. */
#define CANDIDATES 2

/* What the services are given: a network text, the planner's chain with room for its reasons, candidates for the
 * reserved edge with room for their costs, the list of all edges, room for its page, and a table of the network with
 * room for the end of a string. */
struct texts {
    uint8_t network[THINNING_NETWORK_TEXT];
    size_t network_length;
    uint8_t chain[THINNING_CHAIN_TEXT];
    size_t chain_length;
    uint8_t kept[THINNING_KEPT_TEXT];
    size_t kept_length;
    uint8_t reasons[THINNING_REASONS_TEXT];
    size_t reasons_length;
    uint16_t candidates[CANDIDATES];
    uint8_t costs[CANDIDATES * THINNING_COSTS_TEXT];
    size_t costs_length;
    uint8_t list[THINNING_LIST_TEXT];
    size_t list_length;
    uint8_t page[THINNING_PAGE_TEXT];
    size_t page_length;
    uint8_t table[THINNING_TABLE_TEXT + 1];
    size_t table_length;
};

/* The meaning of the network text. */
struct columns {
    uint16_t low[THINNING_EDGES], high[THINNING_EDGES];
    int64_t cost[THINNING_EDGES];
    size_t vertices, reserved;
};

/* A span of the table. */
struct span {
    uint16_t low, high;
    uint8_t weight;
    int64_t cost;
};

static uint32_t check_network(struct texts *t)
{
    return thinning_check_network(t->network, t->network_length);
}

static uint32_t plan(struct texts *t)
{
    return thinning_plan(t->network, t->network_length, t->chain, sizeof t->chain, t->kept, sizeof t->kept,
                         &t->chain_length, &t->kept_length);
}

static uint32_t plan_candidates(struct texts *t)
{
    return thinning_plan_candidates(t->network, t->network_length, t->candidates, CANDIDATES, t->costs, sizeof t->costs,
                                    &t->costs_length);
}

static uint32_t check_chain(struct texts *t)
{
    return thinning_check_chain(t->network, t->network_length, t->chain, t->chain_length, t->kept, sizeof t->kept,
                                &t->kept_length);
}

static uint32_t reasons(struct texts *t)
{
    return thinning_reasons(t->network, t->network_length, t->chain, t->chain_length, t->reasons, sizeof t->reasons,
                            &t->reasons_length);
}

static uint32_t audit(struct texts *t)
{
    bool connected;
    size_t reached, critical;
    return thinning_audit(t->network, t->network_length, t->list, t->list_length, &connected, &reached, &critical);
}

static uint32_t print_page(struct texts *t)
{
    return thinning_print_page(t->network, t->network_length, t->list, t->list_length, t->page, sizeof t->page,
                               &t->page_length);
}

static uint32_t plan_table(struct texts *t)
{
    return thinning_plan_table(t->table, t->table_length, t->chain, sizeof t->chain, t->kept, sizeof t->kept,
                               &t->chain_length, &t->kept_length);
}

/* In this order: the chain that is checked and has reasons is the planner's, and the plan of the table takes its
 * place. */
static const struct {
    const char *name;
    uint32_t (*call)(struct texts *);
} services[] = {{"check", check_network}, {"plan", plan}, {"candidates", plan_candidates}, {"chain check", check_chain},
                {"reasons", reasons}, {"audit", audit}, {"page", print_page}, {"table plan", plan_table}};
#define SERVICES (sizeof services / sizeof *services)

/* A service on its way through a thread: where the thread's own frame is, and what the service answers. */
struct run {
    uint32_t (*call)(struct texts *);
    struct texts *texts;
    const uint8_t *frame;
    uint32_t refusal;
};

static void *run_service(void *given)
{
    struct run *run = given;
    run->frame = __builtin_frame_address(0);
    run->refusal = run->call(run->texts);
    return NULL;
}

static void fail(const char *subject, const char *fault)
{
    fprintf(stderr, "stack: %s: %s\n", subject, fault);
    exit(2);
}

/* The bytes of stack that a service takes. */
static size_t measured(uint8_t *stack, size_t service, struct texts *texts)
{
    struct run run = {services[service].call, texts, NULL, 0};
    pthread_attr_t attributes;
    pthread_t thread;
    memset(stack, PAINT, STACK);
    if (pthread_attr_init(&attributes) != 0 || pthread_attr_setstack(&attributes, stack, STACK) != 0
        || pthread_create(&thread, &attributes, run_service, &run) != 0 || pthread_join(thread, NULL) != 0)
        fail(services[service].name, "no thread with a painted stack");
    pthread_attr_destroy(&attributes);
    if (run.refusal != 0)
        fail(services[service].name, "what it is given is refused");
    const uint8_t *deepest = stack;
    while (deepest < run.frame && *deepest == PAINT)
        deepest++;
    return (size_t)(run.frame - deepest);
}

static void read_network(struct texts *texts, const char *path)
{
    FILE *file = fopen(path, "rb");
    if (file == NULL)
        fail(path, "can't be read");
    texts->network_length = fread(texts->network, 1, sizeof texts->network, file);
    fclose(file);
}

static void read_columns(const struct texts *texts, struct columns *c)
{
    uint32_t refusal = thinning_read_network(texts->network, texts->network_length, c->low, THINNING_EDGES, c->high,
                                             THINNING_EDGES, c->cost, THINNING_EDGES, &c->vertices, &c->reserved);
    if (refusal != 0)
        fail("reading", "the network is refused");
}

/* The first and the last edge of the network. */
static void choose_candidates(struct texts *texts, const struct columns *columns)
{
    texts->candidates[0] = 0;
    texts->candidates[1] = (uint16_t)(2 * columns->vertices - 1);
}

/* The list of every edge of the network. */
static void list_all(struct texts *texts, const struct columns *columns)
{
    static uint16_t edges[THINNING_EDGES];
    size_t count = 2 * columns->vertices;
    for (size_t edge = 0; edge < count; edge++)
        edges[edge] = (uint16_t)edge;
    thinning_write_list(columns->vertices, edges, count, texts->list, sizeof texts->list, &texts->list_length);
}

/* The order of spans: by the lower end, then by the higher one. */
static int by_ends(const void *left, const void *right)
{
    const struct span *a = left, *b = right;
    return a->low != b->low ? a->low - b->low : a->high - b->high;
}

/* A span for each pair of ends, of as many edges as join it, at the cost of one of them; gives how many they are. */
static size_t spans_of(const struct columns *columns, struct span spans[THINNING_EDGES])
{
    size_t edges = 2 * columns->vertices, count = 0;
    for (size_t edge = 0; edge < edges; edge++)
        spans[edge] = (struct span){columns->low[edge], columns->high[edge], 1, columns->cost[edge]};
    qsort(spans, edges, sizeof *spans, by_ends);
    for (size_t edge = 0; edge < edges; edge++)
        if (count > 0 && by_ends(&spans[count - 1], &spans[edge]) == 0)
            spans[count - 1].weight++;
        else
            spans[count++] = spans[edge];
    return count;
}

/* The table text of the network with parallel edges of one cost. */
static void tabulate(struct texts *texts, const struct columns *columns)
{
    static struct span spans[THINNING_EDGES];
    size_t count = spans_of(columns, spans);
    char *table = (char *)texts->table;
    size_t length = (size_t)snprintf(table, sizeof texts->table, "08%04zx%04zx%04zx\n", columns->vertices,
                                     columns->reserved, count);
    for (size_t span = 0; span < count; span++)
        length += (size_t)snprintf(table + length, sizeof texts->table - length, "09%04x%04x%02x%016" PRIx64 "\n",
                                   spans[span].low, spans[span].high, spans[span].weight, (uint64_t)spans[span].cost);
    texts->table_length = length;
}

/* The stack, with a page below it that nobody may touch. */
static uint8_t *guarded_stack(void)
{
    uint8_t *memory = mmap(NULL, GUARD + STACK, PROT_READ | PROT_WRITE, MAP_PRIVATE | MAP_ANONYMOUS, -1, 0);
    if (memory == MAP_FAILED || mprotect(memory, GUARD, PROT_NONE) != 0)
        fail("mmap", "no memory for a stack");
    return memory + GUARD;
}

/* A line of the table: a file's name without folders and ending, or a word, and the bytes of each service. */
static void print_line(const char *path, const size_t bytes[SERVICES])
{
    const char *slash = strrchr(path, '/');
    const char *name = slash == NULL ? path : slash + 1;
    printf("%-16.*s", (int)strcspn(name, "."), name);
    for (size_t service = 0; service < SERVICES; service++)
        printf("%13zu", bytes[service]);
    putchar('\n');
}

/* Measures every service over the network in a file, and prints a line. */
static void measure(uint8_t *stack, const char *path, size_t most[SERVICES])
{
    static struct texts texts;
    static struct columns columns;
    size_t bytes[SERVICES];
    read_network(&texts, path);
    read_columns(&texts, &columns);
    choose_candidates(&texts, &columns);
    list_all(&texts, &columns);
    tabulate(&texts, &columns);
    for (size_t service = 0; service < SERVICES; service++) {
        bytes[service] = measured(stack, service, &texts);
        if (bytes[service] > most[service])
            most[service] = bytes[service];
    }
    print_line(path, bytes);
}

/* Says which services take more than the limit, and whether any does. */
static int above(const size_t most[SERVICES], size_t limit)
{
    int any = 0;
    for (size_t service = 0; service < SERVICES; service++)
        if (most[service] > limit) {
            any = 1;
            printf("%s takes %zu bytes more than %zu\n", services[service].name, most[service] - limit, limit);
        }
    return any;
}

static size_t bytes_of(const char *word)
{
    char *end;
    size_t bytes = strtoul(word, &end, 10);
    if (*word < '0' || *word > '9' || *end != '\0')
        fail(word, "no number of bytes");
    return bytes;
}

int main(int words, char **word)
{
    int limited = words > 2 && strcmp(word[1], "--limit") == 0;
    size_t limit = limited ? bytes_of(word[2]) : SIZE_MAX;
    int first = limited ? 3 : 1;
    size_t most[SERVICES] = {0};
    if (first >= words)
        fail("usage", "stack [--limit BYTES] FILE..");
    uint8_t *stack = guarded_stack();
    printf("%-16s", "bytes of stack");
    for (size_t service = 0; service < SERVICES; service++)
        printf("%13s", services[service].name);
    putchar('\n');
    for (int file = first; file < words; file++)
        measure(stack, word[file], most);
    print_line("most", most);
    return above(most, limit);
}
