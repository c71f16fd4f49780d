      * A policy with its covers, and with the claims of each cover: 38
      * bytes at most.
       01  POLICY-OLD.
           05  POLICY-NO       PIC X(6).
           05  COVER-COUNT     PIC 9.
           05  CLAIM-COUNT     PIC 9.
           05  COVERS.
               10  COVER OCCURS 1 TO 3 DEPENDING ON COVER-COUNT.
                   15  KIND    PIC X(2).
                   15  PREMIUM PIC S9(3)V99 COMP-3.
                   15  CLAIM   PIC 9(4) COMP
                       OCCURS 0 TO 2 DEPENDING ON CLAIM-COUNT.
           05  AGENT           PIC X(3).
