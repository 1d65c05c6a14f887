/* tb_words, tb_version: what a number means, and whether header and library are of one piece. */
#include <stdio.h>
#include <string.h>
#include <torfbarke.h>

int main(void) {
    uint8_t words[TB_WORDS_ROOM], small[8] = "as it is";
    if (tb_version() != TB_VERSION)
        return puts("wrong: header and library are of different versions"), 1;
    size_t length = tb_words(TB_OTHER_LETTER, words, sizeof words);
    if (length != strlen("the file's letter is not the one asked for") || strlen((char *)words) != length)
        return puts("wrong: the words of 35"), 1;
    printf("refused %d: %s\n", TB_OTHER_LETTER, (char *)words);

    /* too little room: the length is told, nothing is written; a number that is none has no words */
    if (tb_words(TB_OTHER_LETTER, small, sizeof small) != length || memcmp(small, "as it is", sizeof small) != 0)
        return puts("wrong: too little room"), 1;
    if (tb_words(13, words, sizeof words) != 0 || words[0] != 0)
        return puts("wrong: a number that is none"), 1;
    return 0;
}
