/* The header's decimals, in the lines by which the program `cases` tells the code's. */
#include "orizhgum.h"

#include <stdio.h>

int main(void)
{
    printf("decimals of a price: %d\n", ORIZHGUM_PRICE_DECIMALS);
    printf("decimals of an entry price: %d\n", ORIZHGUM_ENTRY_PRICE_DECIMALS);
    printf("decimals of a quantity: %d\n", ORIZHGUM_QUANTITY_DECIMALS);
    printf("decimals of an amount: %d\n", ORIZHGUM_AMOUNT_DECIMALS);
    return 0;
}
