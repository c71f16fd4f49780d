       01  ORDER-OLD.
           05  ORDER-DATE      PIC 9(8).
           05  ORDER-DATE-PARTS REDEFINES ORDER-DATE.
               10  ORDER-YEAR  PIC X(4).
               10  ORDER-MONTH PIC X(2).
               10  ORDER-DAY   PIC X(2).
           05  ORDER-NO        PIC 9(5).
