// The header in C++: declarations link, inline functions decode.
#include "yt.h"

#include <cstdio>
#include <vector>
#include <yigtrav.h>

int main()
{
    std::vector<uint16_t> table(yigtrav_table_words(2, 2));
    uint64_t built = yigtrav_build_table(2, 2, table.data(), table.size());
    uint64_t refused = yigtrav_check_table(2, 2, table.data(), table.size() - 1);
    yt_context *context = nullptr;
    bool good = yigtrav_number(built) == YIGTRAV_FINISHED && yigtrav_number(refused) == YIGTRAV_SLICE_TOO_SHORT &&
                yigtrav_place(refused) == 1 && yigtrav_map_words(2, 2) == 14 &&
                yt_open(2, 2, &context).number == 0 && yt_count(context) == 6;
    yt_close(context);
    std::printf("%d passed, %d failed\n", good, !good);
    return !good;
}
