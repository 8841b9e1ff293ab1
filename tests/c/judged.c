/* Judges the table in a file so many times, for tests/instructions: judged TIMES FILE */
#include "magsurinda.h"
#include <stdio.h>
#include <stdlib.h>

int main(int words, char **word)
{
    static uint8_t table[MAGSURINDA_TABLE_LONGEST], sheet[MAGSURINDA_SHEET_LONGEST];
    FILE *file = words == 3 ? fopen(word[2], "rb") : NULL;
    if (file == NULL)
        return 2;
    size_t length = fread(table, 1, sizeof table, file);
    for (int times = atoi(word[1]); times > 0; times--)
        if (magsurinda_number(magsurinda_judge(table, length, sheet, sizeof sheet)) != MAGSURINDA_GRANTED)
            return 1;
    return 0;
}
