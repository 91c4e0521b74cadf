// A host in C++: the header included, the library called. tests/install.sh compiles and runs it.
#include <yordzepa.h>

#include <cstdio>

int main()
{
    static uint8_t book[YORDZEPA_BOOK];
    const uint8_t opening[] = {0, 0, 0, 0, 1, 0, 0, 0x27, 0x10};
    uint64_t answer[YORDZEPA_ANSWER];
    const yordzepa_answer next = calendar_next_open_day(86);

    engine_call(book, sizeof book, opening, sizeof opening, answer);
    std::printf("next open day after 86: %d; opening: code %d\n", static_cast<int>(next.value),
                static_cast<int>(answer[0]));
    return next.code == YORDZEPA_OK && answer[0] == YORDZEPA_OK ? 0 : 1;
}
