/* Loaded in front of a program (LD_PRELOAD), counts its requests for memory and refuses those with given numbers. It also tells
 * the places that make requests apart, by what called them. */
#define _GNU_SOURCE
#include <dlfcn.h>
#include <errno.h>
#include <fcntl.h>
#include <limits.h>
#include <link.h>
#include <malloc.h>
#include <stdio.h>
#include <stdlib.h>
#include <unistd.h>

/* The C library's own function of this name. Looking it up asks for no memory. */
#define NEXT(name) ((__typeof__(&name))dlsym(RTLD_NEXT, #name))

static unsigned long requests;

/* The number that the environment gives by this name; where it is absent or empty, the greatest there is. */
static unsigned long number_of(const char *name)
{
    const char *text = getenv(name);
    return text && *text ? strtoul(text, NULL, 10) : ULONG_MAX;
}

/* The program's code, as it is loaded. */
static struct {
    unsigned long from, to;
} code;

static int find_code(struct dl_phdr_info *loaded, size_t size, void *unused)
{
    (void)size;
    (void)unused;
    for (int i = 0; i < loaded->dlpi_phnum; i++) {
        const ElfW(Phdr) *part = &loaded->dlpi_phdr[i];
        if (part->p_type == PT_LOAD && part->p_flags & PF_X) {
            code.from = loaded->dlpi_addr + part->p_vaddr;
            code.to = code.from + part->p_memsz;
        }
    }
    /* The program itself comes first. */
    return 1;
}

/* How many calls tell a place from others, and how many words of the stack are looked at for them. */
enum { CALLS = 6, WORDS = 512, MOST_PLACES = 1024 };

/* Where the stack was when the program began: what lies above may be the end of what is mapped. The loader sets it. */
extern const unsigned long *__libc_stack_end;

/* A number for the place of a request: the innermost return addresses into the program that stand on the stack. */
static unsigned long place_of_request(void)
{
    const unsigned long *word = __builtin_frame_address(0);
    unsigned long place = 0;
    for (int words = 0, calls = 0; words < WORDS && word < __libc_stack_end && calls < CALLS; words++, word++) {
        if (code.from <= *word && *word < code.to) {
            place = place * 1000003 + (*word - code.from);
            calls++;
        }
    }
    return place;
}

/* The requests that were the first of their places. */
static unsigned long places[MOST_PLACES], firsts[MOST_PLACES];
static int places_count;

static void note_place(void)
{
    if (!code.to)
        dl_iterate_phdr(find_code, NULL);
    unsigned long place = place_of_request();
    for (int i = 0; i < places_count; i++)
        if (places[i] == place)
            return;
    if (places_count < MOST_PLACES) {
        places[places_count] = place;
        firsts[places_count++] = requests;
    }
}

/* Counts a request, and says whether it is one of those from REFUSE_FROM to REFUSE_TO; the first request is 1. */
static int is_refused(void)
{
    requests += 1;
    if (getenv("PLACES_FILE"))
        note_place();
    return number_of("REFUSE_FROM") <= requests && requests <= number_of("REFUSE_TO");
}

void *malloc(size_t size)
{
    if (is_refused()) {
        errno = ENOMEM;
        return NULL;
    }
    return NEXT(malloc)(size);
}

void *calloc(size_t count, size_t size)
{
    if (is_refused()) {
        errno = ENOMEM;
        return NULL;
    }
    return NEXT(calloc)(count, size);
}

/* A block has at most so many bytes more than were asked for. */
enum { MOST_SPARE = 24 };

/* Whether a block gives bytes back and so takes no memory. Where it is not clear, it is taken for a request. */
static int is_smaller(void *old, size_t size)
{
    return old && size + MOST_SPARE < malloc_usable_size(old);
}

void *realloc(void *old, size_t size)
{
    if (!is_smaller(old, size) && is_refused()) {
        errno = ENOMEM;
        return NULL;
    }
    return NEXT(realloc)(old, size);
}

void *aligned_alloc(size_t alignment, size_t size)
{
    if (is_refused()) {
        errno = ENOMEM;
        return NULL;
    }
    return NEXT(aligned_alloc)(alignment, size);
}

int posix_memalign(void **made, size_t alignment, size_t size)
{
    return is_refused() ? ENOMEM : NEXT(posix_memalign)(made, alignment, size);
}

/* The file that the environment gives by this name, opened anew, or -1. */
static int opened(const char *name)
{
    const char *path = getenv(name);
    return path ? open(path, O_WRONLY | O_CREAT | O_TRUNC, 0666) : -1;
}

/* Writes how many requests there were to the file that REQUESTS_FILE names, and each place with its first request to the one that
 * PLACES_FILE names. What writing itself asks for is not among them. A program that crashes writes none. */
__attribute__((destructor)) static void end(void)
{
    unsigned long all = requests;
    int counted = opened("REQUESTS_FILE"), noted = opened("PLACES_FILE"), count = places_count;
    if (counted >= 0) {
        dprintf(counted, "%lu\n", all);
        close(counted);
    }
    for (int i = 0; noted >= 0 && i < count; i++)
        dprintf(noted, "%lx %lu\n", places[i], firsts[i]);
    if (noted >= 0)
        close(noted);
}
