# A rec file of n megabytes: 7,000 contacts in each, of nine fields; some have a comment, a joined line and a plus line.
#     awk -f contacts.awk -v megabytes=10
BEGIN {
    for (i = 0; i < 7000 * megabytes; i++) {
        if (i % 10 == 0)
            print "# met in May"
        printf "Id: %d\nName: reader %d\nAge: %d\nTown: Springfield %d\nMail: r%d@example.org\nMail: m%d@b.org\n", 1000000 + i, i, i % 90, i % 1000, i, i
        if (i % 10 == 5)
            printf "Street: %d \\\nRoad\n", i % 300
        else
            printf "Street: %d Road\n", i % 300
        printf "Phone: 555 %04d\nNote: none", i % 10000
        printf i % 10 == 7 ? "\n+ and more\n\n" : "\n\n"
    }
}
