       01  PERSON-NEW.
           05  NAME        PIC X(4).
           05  NUM         PIC 9(5).
