// The program's `encode` and `decode` of a raster of terrain, 4,096 by 4,096, beside the library's calls over arrays of
// the same raster, in turn. Prints a table: for each command the milliseconds of processor time of the run that took
// least, in the program and in the kernel, and those of the least call of the library. The program reads its input from
// a file and writes its output into one, once into a new file and once over the bytes of one that was there. Where its
// blob is not the library's, or the decoded grid not the given one, it ends with 1.
// program PROGRAM FOLDER ROUNDS: the built program, a folder for the files, best one in memory, and how many rounds.
#include "calls.h"
#include <fcntl.h>
#include <fstream>
#include <spawn.h>
#include <sys/resource.h>
#include <sys/wait.h>
#include <unistd.h>

namespace {

// ---- the program

// Milliseconds of processor time.
struct Times {
    double program = 1e9, kernel = 1e9;

    double together() const { return program + kernel; }
};

double milliseconds(const timeval &t) { return double(t.tv_sec) * 1e3 + double(t.tv_usec) / 1e3; }

std::string status_words(int status) {
    return WIFEXITED(status) ? "ends with " + std::to_string(WEXITSTATUS(status)) : "is killed";
}

// Runs the program on the words, from one file into another, and waits for it.
Times run(const std::vector<std::string> &words, const std::string &from, const std::string &into) {
    std::vector<char *> list;
    for (const std::string &word : words)
        list.push_back(const_cast<char *>(word.c_str()));
    list.push_back(nullptr);
    posix_spawn_file_actions_t streams;
    posix_spawn_file_actions_init(&streams);
    posix_spawn_file_actions_addopen(&streams, 0, from.c_str(), O_RDONLY, 0);
    posix_spawn_file_actions_addopen(&streams, 1, into.c_str(), O_WRONLY | O_CREAT, 0600);
    pid_t process;
    if (posix_spawn(&process, list[0], &streams, nullptr, list.data(), environ) != 0)
        fail("there is no program " + words[0]);
    posix_spawn_file_actions_destroy(&streams);
    int status;
    rusage used{};
    if (wait4(process, &status, 0, &used) != process || status != 0)
        fail("the program " + status_words(status));
    return {milliseconds(used.ru_utime), milliseconds(used.ru_stime)};
}

// ---- files

// The bytes of a file; none where it is not there.
Bytes file_bytes(const std::string &path) {
    std::ifstream file(path, std::ios::binary);
    return Bytes(std::istreambuf_iterator<char>(file), std::istreambuf_iterator<char>());
}

void add_number(Bytes &bytes, uint32_t number) {
    for (int k = 0; k < 4; k++)
        bytes.push_back(uint8_t(number >> (8 * k)));
}

// The grid of a raster all of whose pixels are valid.
Bytes grid_of(const Raster &r) {
    Bytes bytes{'L', 'G', 'R', '1', uint8_t(r.kind)};
    for (uint32_t number : {r.rows, r.cols, r.depth})
        add_number(bytes, number);
    bytes.insert(bytes.end(), r.valid.begin(), r.valid.end());
    bytes.insert(bytes.end(), r.values.begin(), r.values.end());
    return bytes;
}

// ---- a command

// A command of the program from one file into another, and its least times so far.
struct Command {
    std::vector<std::string> words;
    std::string from, into;
    Times fresh, over;

    // Once into a new file, and once over its bytes.
    void one_round() {
        unlink(into.c_str());
        keep_least(fresh);
        keep_least(over);
    }

    // Two rows of the table, beside the milliseconds of the library's call.
    void tell(double call) const {
        std::string name = words[2];
        row(name + ", into a new file", fresh, call);
        row(name + ", over a file", over, call);
    }

private:
    void keep_least(Times &least) const {
        Times now = run(words, from, into);
        if (now.together() < least.together())
            least = now;
    }

    static void row(const std::string &name, const Times &t, double call) {
        std::printf("| %s | %.1f | %.1f | %.1f | %.1f | %.2f |\n", name.c_str(), t.program, t.kernel, t.together(), call,
                    t.together() / call);
    }
};

// ---- the library

// The least milliseconds of its two calls so far, over arrays that were written to before, and the blob.
struct Library {
    Raster raster, back;
    Bytes blob;
    size_t size = 0;
    double encode = 1e9, decode = 1e9;

    explicit Library(const Raster &r) : raster(r), back(r), blob(room_for(r), 1) {}

    void one_round() {
        double start = seconds();
        size = ours_encode(raster, 4, 0, blob.data(), blob.size());
        encode = std::min(encode, (seconds() - start) * 1e3);
        start = seconds();
        ours_decode(blob.data(), size, back);
        decode = std::min(decode, (seconds() - start) * 1e3);
    }
};

} // namespace

int main(int count, char **words) {
    if (count != 4)
        fail("program PROGRAM FOLDER ROUNDS");
    std::string program = words[1], folder = words[2];
    std::string grid = folder + "/grid", blob = folder + "/blob", again = folder + "/again";
    Library library(made<int16_t>(FUTSKHERI_I16, 4096, 4096, 1, terrain));
    const Bytes given = grid_of(library.raster);
    std::ofstream(grid, std::ios::binary).write(reinterpret_cast<const char *>(given.data()), std::streamsize(given.size()));
    Command encode{{program, "-", "encode", "4", "0"}, grid, blob, {}, {}};
    Command decode{{program, "-", "decode"}, blob, again, {}, {}};
    for (int k = std::max(1, std::atoi(words[3])); k > 0; k--) {
        encode.one_round();
        decode.one_round();
        library.one_round();
    }
    library.blob.resize(library.size);
    if (file_bytes(blob) != library.blob)
        fail("the program's blob is not the library's");
    if (file_bytes(again) != given)
        fail("the program decodes its blob to another grid");
    std::printf("| command | program ms | kernel ms | together | the library's call | ratio |\n");
    std::printf("|---|---|---|---|---|---|\n");
    encode.tell(library.encode);
    decode.tell(library.decode);
    return 0;
}
