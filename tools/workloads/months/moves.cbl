           MOVE ACCOUNT TO ACCOUNT-OUT.
           MOVE BRANCH TO BRANCH-OUT.
           PERFORM VARYING I FROM 1 BY 1 UNTIL I > 12
               MOVE I TO MON-NO (I)
               MOVE UNITS (I) TO UNITS-OUT (I)
               MOVE PAID (I) TO PAID-OUT (I)
               MOVE TAKEN (I) TO TAKEN-OUT (I)
           END-PERFORM.
