# Descriptors, the types of fields, and where a file breaks its rules, as the program tells it: crates/rec_rows has the rows.

load helpers

# descriptor ANSWER FIELD
descriptor() {
    case $1 in
        accepted)
            put db.rec "%rec: P¶$2¶"
            shows '0 P¶' recinf
            ;;
        *)
            put db.rec "%doc: d¶%rec: P¶$2¶¶N: 1¶"
            rejects "$1" recfix
            ;;
    esac
}

@test "fields of descriptors" {
    descriptor accepted '%key:¶+ %Id_1'
    descriptor 'line 4: bad descriptor field' '%key: A¶%key: A'
    descriptor 'line 3: not supported' '%confidential: K'
    descriptor 'pattern not accepted' '%type: N regexp /(/'
}

@test "values that fit a type, and values that don't" {
    put db.rec '%rec: P¶%type: N,%M int¶¶N:  12 \x09¶%M: 017¶O: x¶'
    reports ''
    put db.rec '%rec: P¶%type: N,%M int¶¶N: 1¶+¶%M: 08¶O: x¶'
    reports '4: type N¶6: type %M¶'
}

@test "the manual's book breaks no rule" {
    put db.rec <<'REC'
# -*- mode: rec -*-

%rec: Book
%mandatory: Title
%type: Location enum loaned home unknown
%sort: Title
%doc:
+ My books.

Title: GNU Emacs Manual
Author: Richard M. Stallman
Location: home
REC
    reports ''
}

@test "a record that breaks every rule of its set" {
    put db.rec <<'REC'
%constraint: 0
%rec: P
%key: K
%allowed: A
%type: A,K int
%unique: A
%prohibit: B
%mandatory: M
%size: 2
%constraint: 1
%constraint: M = 2

K: x
A: y
A: 1
B: 1

%rec: Q
%size: 1
REC
    reports "\
1: size P
13: mandatory M
13: prohibit B
13: unique A
13: allowed B
13: type K
14: type A
13: constraint 1
13: constraint 3
18: size Q
"
}

# chain FROM: definitions of T0 to T999, each by the next one, and of T1000 by FROM
chain() {
    printf '%%rec: P\n%%type: N T0\n'
    seq -f '%.0f' 0 999 | awk '{ printf "%%typedef: T%d T%d\n", $1, $1 + 1 }'
    printf '%%typedef: T1000 %s\n\nN: 1\n\nN: x\n' "$1"
}

@test "a chain of 1,000 definitions" {
    chain int | put db.rec
    reports '1007: type N'$'\n'
    chain T1001 | put db.rec
    reports "2: typedef T0"$'\n'"$(seq -f '%.0f' 1 1001 | awk '{ printf "%d: typedef T%d\n", $1 + 2, $1 }')"$'\n'
    # it comes back to its middle
    chain T500 | put db.rec
    reports "2: typedef T0"$'\n'"$(seq -f '%.0f' 1 1000 | awk '{ printf "%d: typedef T%d\n", $1 + 2, $1 }')"$'\n'"1003: typedef T500"$'\n'
}
