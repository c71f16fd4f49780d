       01  PERSON.
           05  NUM         PIC 9(3).
           05  NAME        PIC X(3).
