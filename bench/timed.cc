// Runs a command, and prints a row of a table: its name, how many bytes it gave, the seconds that it took by the clock, in
// the program and in the kernel, and the most memory that it had, in MB (10^6 bytes).
// timed NAME OUT WORD..: where its output goes, and the command. It ends with the command's status.
#include <chrono>
#include <cstdio>
#include <cstdlib>
#include <fcntl.h>
#include <spawn.h>
#include <sys/resource.h>
#include <sys/stat.h>
#include <sys/wait.h>

namespace {

double seconds(const timeval &t) { return double(t.tv_sec) + double(t.tv_usec) / 1e6; }

} // namespace

int main(int count, char **words) {
    if (count < 4)
        return 1;
    const char *out = words[2];
    posix_spawn_file_actions_t streams;
    posix_spawn_file_actions_init(&streams);
    posix_spawn_file_actions_addopen(&streams, 1, out, O_WRONLY | O_CREAT | O_TRUNC, 0600);
    auto begin = std::chrono::steady_clock::now();
    pid_t process;
    if (posix_spawnp(&process, words[3], &streams, nullptr, words + 3, environ) != 0) {
        std::fprintf(stderr, "bench: there is no program %s\n", words[3]);
        return 1;
    }
    int status;
    rusage used{};
    if (wait4(process, &status, 0, &used) != process)
        return 1;
    std::chrono::duration<double> clock = std::chrono::steady_clock::now() - begin;
    struct stat given {};
    stat(out, &given);
    std::printf("| %s | %lld | %.3f | %.3f | %.3f | %.0f |\n", words[1], static_cast<long long>(given.st_size), clock.count(),
                seconds(used.ru_utime), seconds(used.ru_stime), double(used.ru_maxrss) * 1024 / 1e6);
    return WIFEXITED(status) ? WEXITSTATUS(status) : 1;
}
