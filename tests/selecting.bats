# What recsel and recinf print: which records, which fields, which sets, as the program prints it: crates/rec_rows has the
# rows.

load helpers

@test "what is printed" {
    put db.rec 'X: 1¶¶%rec: P¶¶N: 1¶¶N: 2¶'
    shows 'N: 1¶N: 2¶' recsel -t P -C
    shows '1¶2 P¶' recinf
    shows '%rec: P¶' recinf -d
    put db.rec ''
    shows '' recsel
    shows '0¶' recsel -c
}

@test "what is refused" {
    put db.rec 'X: 1¶¶%rec: P¶¶N: 1¶'
    rejects 'no such record type' recsel -t Q
    rejects 'field list: error at byte 3' recsel -p 'A[1'
    put db.rec 'A: 1¶B: x\'
    rejects 'line 2: nothing follows the backslash' recsel
}

@test "what an expression selects" {
    put db.rec "A: é¶¶A: e¶¶A: b'a¶"
    shows '2¶' recsel -c -e "A ~ '[[:alpha:]]'"
    shows '1¶' recsel -c -e "A = 'b\\'a'"
    rejects 'pattern not accepted' recsel -c -e "A ~ '[[]'"
    rejects 'expression: error at byte 4' recsel -c -e 'A ~ B'
}

@test "what a value selects" {
    put db.rec "A: O'Brien¶B: x\¶y¶+ z¶¶A: O¶¶A: é=¶"
    shows "A: O'Brien¶" recsel --where "A=O'Brien" -p A
    shows "A: O'Brien¶" recsel --where $'B=xy\nz' -p A
    shows 'A: é=¶' recsel --where A=é=
    shows '' recsel --where "A=' || '1' = '1"
    shows '0¶' recsel --where C= -c
    rejects 'bad name' recsel --where 'A B=x'
    rejects 'bad usage' recsel --where A
}

@test "patterns of thousands of bytes, and patterns that are nested deeply" {
    local long opening closing
    put db.rec 'A: x¶'
    printf -v long 'x%.0s' {1..20000}
    shows '0¶' recsel -c -e "A ~ '$long'"
    printf -v long '|word%d' {1..2000}
    shows '1¶' recsel -c -e "A ~ '^(x$long)$'"
    printf -v opening '(%.0s' {1..200}
    printf -v closing ')%.0s' {1..200}
    shows '1¶' recsel -c -e "A ~ '^${opening}x$closing$'"
}

@test "a value of the manual's book" {
    put db.rec <<'REC'
# -*- mode: rec -*-

%rec: Book
%mandatory: Title
%type: Location enum loaned home unknown
%sort: Title
%doc:
+ My books.

Title: GNU Emacs Manual
Author: Richard M. Stallman
Location: home
REC
    shows 'GNU Emacs Manual¶' recsel -e "Location = 'home'" -P Title
}
