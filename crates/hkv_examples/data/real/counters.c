/* Accounts that stop at their ends in place of going round. */
#include <stdint.h>

#define NPROC 8

uint32_t spent[NPROC]; /* stops at the greatest number */
uint32_t quota[NPROC]; /* stops at 0 */
int32_t balance[NPROC]; /* stops at both ends */

int32_t charge(uint32_t pid, uint32_t by) {
    if (pid >= NPROC)
        return -1;
    spent[pid] = spent[pid] + by < by ? UINT32_MAX : spent[pid] + by;
    quota[pid] = quota[pid] > by ? quota[pid] - by : 0;
    return 0;
}

int32_t settle(uint32_t pid, int32_t by) {
    if (pid >= NPROC)
        return -1;
    int64_t sum = (int64_t)balance[pid] + by;
    balance[pid] = sum > INT32_MAX ? INT32_MAX : sum < INT32_MIN ? INT32_MIN : sum;
    return 0;
}
