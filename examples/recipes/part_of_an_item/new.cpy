       01  ORDER-NEW.
           05  NEW-DAY         PIC X(2).
           05  FILLER          PIC X VALUE ".".
           05  NEW-MONTH       PIC X(2).
           05  FILLER          PIC X VALUE ".".
           05  NEW-YEAR        PIC X(4).
           05  NEW-NO          PIC 9(5).
