/* What the kernel counted of its BPF programs: a line `cost NAME RUNS NANOSECONDS` for each. It
   counts while kernel.bpf_stats_enabled is 1.  */
#include <bpf/bpf.h>
#include <stdio.h>
#include <string.h>
#include <unistd.h>

int main(void) {
    __u32 id = 0;
    while (bpf_prog_get_next_id(id, &id) == 0) {
        struct bpf_prog_info info;
        __u32 length = sizeof info;
        int program = bpf_prog_get_fd_by_id(id);
        if (program < 0)
            continue;
        memset(&info, 0, sizeof info);
        if (bpf_prog_get_info_by_fd(program, &info, &length) == 0)
            printf("cost %s %llu %llu\n", info.name, (unsigned long long)info.run_cnt,
                   (unsigned long long)info.run_time_ns);
        close(program);
    }
    return 0;
}
