       01  IN-REC.
           05 ACCOUNT PIC 9(12).
           05 KIND PIC X(2).
           05 HOLDER PIC X(30).
           05 REMARK PIC X(40).
           05 BOOKED-ON PIC 9(8).
           05 VALUED-ON PIC 9(8).
           05 BALANCE PIC S9(13)V99.
           05 POSTINGS PIC S9(9) COMP.
           05 RATE PIC 9(2)V9(5) COMP-3.
           05 POSTING OCCURS 6.
               10 AMOUNT PIC S9(11)V99.
               10 TAX PIC S9(9)V99.
