# A rec file of n contacts with a key, a counter, types, mandatory and unique fields, all of them kept; some 150 bytes each.
#     awk -f keyed.awk -v records=10000
BEGIN {
    print "%rec: Contact\n%key: Id\n%auto: Id\n%type: Id range 0 MAX\n%type: Name line\n%type: Age range 0 150"
    print "%type: Member bool\n%type: Mail regexp /^[a-z0-9]+@[a-z.]+$/\n%type: Kind enum friend family work\n%mandatory: Name Mail\n%unique: Name Age\n"
    split("friend family work", kinds, " ")
    for (i = 0; i < records; i++)
        printf "Id: %d\nName: reader %d of the village library\nAge: %d\nMember: %s\nMail: r%d@example.org\nKind: %s\nStreet: %d Long Road\nPhone: 555 %04d\n\n",
            1000000 + i, i, i % 90, i % 3 ? "yes" : "no", i, kinds[i % 3 + 1], i % 300, i % 10000
}
