// eclib's space of modular symbols of a level, over its own prime; at level 0 nothing but the start of the process.
// It prints the dimension. bench/opening compiles it where g++ and eclib's headers are installed.
#include <cstdlib>
#include <eclib/homspace.h>

int main(int count, char **words) {
    long level = count > 1 ? std::atol(words[1]) : 0;
    if (level > 0) {
        homspace space(level, 0, 0, 0);
        std::cout << space.h1dim() << std::endl;
    }
}
