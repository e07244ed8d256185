/* Loads each program of a file of BPF by itself, so that the kernel's verifier follows it.

       verified FILE

   Prints `part NAME STATUS INSTRUCTIONS MS`: the status is 0 or a negative error, the instructions
   are those that the verifier followed, -1 if it tells none. Of a program that it refuses it prints
   the last lines of what it said.  */
#define _GNU_SOURCE
#include <bpf/libbpf.h>
#include <stdio.h>
#include <stdlib.h>
#include <string.h>
#include <time.h>

#define MOST_PARTS 64
#define MOST_SAID (8 << 20)
/* BPF_LOG_STATS of the kernel.  */
#define NUMBERS_ALONE 4

static int say_nothing(enum libbpf_print_level level, const char *form, va_list words) {
    (void)level, (void)form, (void)words;
    return 0;
}

static long ms_now(void) {
    struct timespec now;
    clock_gettime(CLOCK_MONOTONIC, &now);
    return now.tv_sec * 1000 + now.tv_nsec / 1000000;
}

static void load(const char *path, const char *name, char *said) {
    struct bpf_object *object = bpf_object__open_file(path, NULL);
    struct bpf_program *each;
    long began = ms_now();
    *said = 0;
    bpf_object__for_each_program(each, object) {
        bpf_program__set_autoload(each, strcmp(bpf_program__name(each), name) == 0);
        bpf_program__set_log_buf(each, said, MOST_SAID - 1);
        bpf_program__set_log_level(each, NUMBERS_ALONE);
    }
    int status = bpf_object__load(object);
    const char *numbers = strstr(said, "processed ");
    size_t length = strlen(said);
    printf("part %s %d %ld %ld\n", name, status, numbers ? atol(numbers + 10) : -1,
           ms_now() - began);
    if (status)
        printf("%s\n", length > 600 ? said + length - 600 : said);
    bpf_object__close(object);
}

int main(int count, char **words) {
    static char names[MOST_PARTS][64];
    int parts = 0;
    libbpf_set_print(say_nothing);
    struct bpf_object *object = count == 2 ? bpf_object__open_file(words[1], NULL) : NULL;
    struct bpf_program *each;
    char *said = malloc(MOST_SAID);
    if (!object || !said)
        return 2;
    bpf_object__for_each_program(each, object) {
        if (parts < MOST_PARTS)
            snprintf(names[parts++], sizeof names[0], "%s", bpf_program__name(each));
    }
    bpf_object__close(object);
    for (int at = 0; at < parts; at++)
        load(words[1], names[at], said);
    free(said);
    return 0;
}
