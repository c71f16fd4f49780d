       01  NEW-CUST-REC.
           05  NEW-CUST-NO PIC 9(6).
           05  NEW-NAME    PIC X(8).
           05  NEW-COUNTRY PIC X(2) VALUE "DE".
