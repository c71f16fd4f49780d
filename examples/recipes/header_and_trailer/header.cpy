       01  HEADER.
           05  KIND        PIC X.
           05  RUN-DATE    PIC 9(8).
           05  FILLER      PIC X(11).
