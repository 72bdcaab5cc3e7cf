// Says whether two logs mean the same: compare LEFT RIGHT
//
//     c++ compare.cpp $(pkg-config --cflags --libs udsnorm) -o compare
//
// Ends with 0 where they do, with 1 where they differ, and with 2 where a log is refused or can't be read.
#include <fstream>
#include <iostream>
#include <iterator>
#include <udsnorm.h>
#include <vector>

static bool read(const char *name, std::vector<uint8_t> &log)
{
    std::ifstream file(name, std::ios::binary);
    log.assign(std::istreambuf_iterator<char>(file), std::istreambuf_iterator<char>());
    return file.is_open() && !file.bad();
}

int main(int count, char **words)
{
    std::vector<uint8_t> left, right;
    if (count != 3 || !read(words[1], left) || !read(words[2], right)) {
        std::cerr << "compare LEFT RIGHT: a file can't be read\n";
        return 2;
    }
    udsnorm_answer answer;
    udsnorm_compare(UDSNORM_TESTER, UDSNORM_UNIT, UDSNORM_LIMIT, nullptr, 0, nullptr, 0, left.data(), left.size(),
                    right.data(), right.size(), nullptr, 0, &answer);
    if (answer.status != UDSNORM_DONE) {
        std::cerr << words[answer.side] << ": refused in line " << answer.line << " (status " << answer.status << ")\n";
        return 2;
    }
    if (answer.item == 0) {
        std::cout << "same\n";
        return 0;
    }
    std::cout << "different at item " << answer.item << "\n";
    return 1;
}
