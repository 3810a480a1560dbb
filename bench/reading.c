// A reader for measures: it reads its standard input to the end, as it comes, and does nothing with it. What it takes is
// what the system takes for so many reads.
//
// Usage: reading
#include <unistd.h>

int main(void) {
    char piece[4096];
    while (read(0, piece, sizeof piece) > 0) {
    }
    return 0;
}
