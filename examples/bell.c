/* Bell: Ask causes Pass, Pass causes Give, Give causes Done; Ask stalls Ask. */
#include <stdio.h>
#include "zeveltoren.h"

int main(void)
{
    uint8_t causes[16] = {[0] = 1 << 1, [4] = 1 << 2, [8] = 1 << 3}, stalls[16] = {[0] = 1 << 0}, network[4];
    uint64_t answer = vn_relations(4, causes, 16, stalls, 16, network, 4);
    printf("class %u, %u networks:", vn_class(answer), vn_networks(answer));
    for (size_t i = 0; i < vn_length(answer); i++)
        printf(" %u", network[i]);
    puts("");
    return vn_refusal(answer);
}
