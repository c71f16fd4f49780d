       01  OUT-REC.
           05 O-ACCOUNT PIC 9(12) COMP-3.
           05 O-KIND PIC X(2).
           05 O-HOLDER PIC X(30).
           05 O-REMARK PIC X(40).
           05 O-BOOKED-ON PIC 9(8) COMP-3.
           05 O-VALUED-ON PIC 9(8) COMP-3.
           05 O-BALANCE PIC S9(13)V99 COMP-3.
           05 O-POSTINGS PIC S9(9) COMP-3.
           05 O-RATE PIC Z9.99.
           05 O-POSTING OCCURS 6.
               10 O-AMOUNT PIC S9(11)V99 COMP-3.
               10 O-TAX PIC S9(9)V99 COMP-3.
