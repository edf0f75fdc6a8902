// timers.s: the re-arming of a table of timers, as in the scheduler of an automation hub.
//
// The image is made by these two commands:
//
//   ia64-linux-gnu-as -o timers.o timers.s
//   ia64-linux-gnu-objcopy -O binary -j .text timers.o timers.bin
//
// The code starts with the first bundle and runs at any address that is a multiple of 16. It needs memory that
// can be read and written at 0x10000 to 0x17fff, builds its own data there, and ends with a break.
//
// A timer has 32 bytes:
//    +0  due      the tick at which it is due
//    +8  period   the number of ticks from one time to the next
//   +16  state    bit 0: switched on; bit 1: marked; bits 8 to 15: how often it fired, modulo 256
//   +20  skew     the upper half of the state, a signed correction of the period
//   +24  counter  the address of the word that is counted up when the timer fires
// A request has 12 bytes, as it came in a message: a 4-byte number, then 8 bytes of slack (ticks times 2^32).

        N      = 10             // timers, and requests
        TABLE  = 0x10000        // the timers
        COPY   = 0x10180        // the due times after the pass, 8 bytes each
        CLOCK  = 0x101e0        // the present tick
        COUNTS = 0x101f0        // two counters
        REQS   = 0x10200        // the requests
        STACK  = 0x17ff0        // the stack pointer; the 16 bytes from here are scratch space

        .text
        .explicit

// Main. r40 old ar.pfs, r41 table, r42 address of the clock, r43 end of the table, r44 this timer, r45 the slack of
// its request, r46 clock, r47 sum of slack, r48 timers re-armed, r49 timers marked, r50 to r52 arguments of calls.
start:  alloc   r40 = ar.pfs, 0, 18, 3, 0
        invala                                  // no advanced load is outstanding
        movl    r41 = TABLE
        movl    r12 = STACK ;;
        adds    r42 = CLOCK - TABLE, r41
        adds    r20 = COUNTS - TABLE, r41
        adds    r18 = REQS - TABLE, r41
        adds    r15 = 8, r41
        mov     r14 = r41
        mov     r21 = 399
        mov     ar.lc = N - 1 ;;
        st8     [r42] = r21                     // the clock starts at 399
        st8     [r20] = r0, 8
        mov     r16 = 0                         // i
        mov     r17 = 100                       // due time of timer i
        mov     r19 = 30
        movl    r21 = 0x80000000 ;;             // half a tick of slack
        st8     [r20] = r0, -8 ;;

// Build timer i and request i. r14 goes over due and state, r15 over period and counter, r18 over the requests.
//   due = 100 + 60 i    period = 30 + 8 i    skew = 2 - i    fired = 251 + i    on, but for timers 3 and 7
//   counter = COUNTS + 8 (i mod 2)           slack = i + 1/2 ticks
build:  st4     [r18] = r16, 4                  // number of the request
        shladd  r22 = r16, 3, r19               // period
        sub     r23 = 2, r16                    // skew
        adds    r24 = 251, r16                  // fired
        and     r25 = 1, r16
        cmp.eq  p6, p7 = r0, r0 ;;              // p6 = 1
        st4     [r18] = r21, 4                  // low half of the slack
        cmp.ne.and p6, p0 = 3, r16              // p6 = p6 and i != 3
        cmp.ne.and p6, p0 = 7, r16              // p6 = p6 and i != 7
        dep.z   r23 = r23, 32, 32
        shladd  r25 = r25, 3, r20 ;;            // counter
        st4     [r18] = r16, 4                  // high half of the slack
        dep     r23 = r24, r23, 8, 8 ;;
        st8     [r14] = r17, 16
        st8     [r15] = r22, 16
(p6)    or      r23 = 1, r23 ;;
        st8     [r14] = r23, 16
        st8     [r15] = r25, 16
        adds    r17 = 60, r17
        adds    r16 = 1, r16
        br.cloop.sptk.few build ;;

// Three timers count elsewhere. Timer 0 is the tick: its counter is the clock. Timer 2 counts in its own period,
// timer 5 in its own due time.
        adds    r14 = 0 * 32 + 24, r41
        adds    r15 = 2 * 32 + 24, r41
        adds    r16 = 5 * 32 + 24, r41
        adds    r17 = 2 * 32 + 8, r41
        adds    r18 = 5 * 32, r41 ;;
        st8     [r14] = r42
        st8     [r15] = r17
        st8     [r16] = r18

// The pass over the table: call rearm for each timer. b1 holds its address, taken from the instruction pointer, so
// that the code may be loaded anywhere. The load of the clock was moved out of the loop, as an advanced load, because
// few calls change the clock. Each turn checks it; the entry stays (nc) for the check of the next turn.
        ld8.a   r46 = [r42]
        adds    r43 = N * 32, r41
        adds    r45 = REQS - TABLE + 4, r41
        mov     r44 = r41
        mov     r47 = 0
        mov     r48 = 0
        mov     r49 = 0 ;;
here:   mov     r14 = ip ;;
        adds    r14 = rearm - here, r14 ;;
        mov     b1 = r14 ;;

// The slack is wanted only if the timer is re-armed. Its load was moved above the call that decides this, as a
// speculative load, so that memory is read during the call. The slack of every second request is not at a
// multiple of 8. The load may then be deferred: r4 gets a NaT bit, and the recovery code reads the two halves.
pass:   ld8.c.nc r46 = [r42]
        ld8.s   r4 = [r45]
        mov     r50 = r44 ;;
{ .mib  nop.m   0
        mov     r51 = r46
        br.call.sptk.many b0 = b1 ;;
}
        tbit.nz p6, p7 = r8, 0                  // p6: re-armed, p7: not
        tbit.nz p8, p9 = r8, 1 ;;               // p8: marked
(p6)    adds    r48 = 1, r48
(p8)    adds    r49 = 1, r49
(p7)    br.cond.dptk.few next ;;
        chk.s.m r4, halves ;;
slack:  add     r47 = r47, r4
next:   adds    r44 = 32, r44
        adds    r45 = 12, r45 ;;
{ .mbb  cmp.ltu p6, p7 = r44, r43
(p6)    br.cond.dptk.few pass
(p7)    br.cond.sptk.few after ;;
}
halves: adds    r14 = 4, r45                    // recovery code of the slack
        ld4     r15 = [r45] ;;
        ld4     r14 = [r14] ;;
        shl     r14 = r14, 32 ;;
        or      r4 = r14, r15
        br.cond.sptk.few slack ;;

// Copy the due times. The loop is modulo-scheduled in three stages of one bundle each: p16 loads, p17 waits for the
// load, p18 stores. Each turn renames r32 to r33, r33 to r34, so the value stored is the one loaded two turns before.
after:  alloc   r40 = ar.pfs, 0, 18, 3, 8       // r32 to r39 rotate
        mov     r14 = r41
        adds    r15 = COPY - TABLE, r41
        mov     ar.lc = N - 1
        mov     ar.ec = 3
        mov     pr.rot = 1 << 16 ;;             // p16 = 1, p17 to p63 = 0
copy:
{ .mmb
(p16)   ld8     r32 = [r14], 32
(p18)   st8     [r15] = r34, 8
        br.ctop.sptk.few copy ;;
}
        clrrrb ;;                               // alloc may end the rotation only when the rename bases are 0
        alloc   r40 = ar.pfs, 0, 18, 3, 0
        adds    r50 = COPY - TABLE, r41
        mov     r51 = N
        extr.u  r52 = r47, 32, 32 ;;            // whole ticks of slack
        br.call.sptk.many b0 = fold ;;
        mov     r9 = r48
        mov     r10 = r49 ;;
{ .mfb  break.m 0                               // the end
        nop.f   0
        nop.b   0 ;;
}

// rearm(r32 timer, r33 clock): if the timer is on, has a period and is due, count it up and move its due time on by
// period + skew. Answers in r8 bit 0: re-armed; bit 1: marked, because more than 100 ticks late or fired wrapped to 0.
//
// The counter may be any word, so the store in bump may change the due time or the period, and the new due time has
// to be made from what they hold after it. The tests need both before it, so both are loaded once, above the store,
// by advanced loads. The sum r4, made from the period, was moved above the call as well. After the call chk.a asks
// whether the period was stored to, and if so the recovery code loads it and makes the sum again.
// r4 is to be kept for the caller and may have its NaT bit set, so st8 would fault: st8.spill puts the NaT bit into
// ar.unat, and ld8.fill brings it back.
rearm:  alloc   r34 = ar.pfs, 2, 7, 1, 0        // locals r34 to r40, argument of the call r41
        adds    r14 = 8, r12
        adds    r15 = 8, r32
        adds    r16 = 16, r32
        mov     r35 = b0
        mov     r36 = ar.unat ;;
        st8.spill [r14] = r4
        ld8.a   r37 = [r32]                     // due
        ld8.a   r38 = [r15]                     // period
        ld8     r17 = [r16], 4                  // state
        adds    r12 = -16, r12
        mov     r39 = 0 ;;
        ld4     r40 = [r16], 4                  // skew
        sub     r19 = r33, r37                  // ticks late
        cmp.eq  p6, p7 = r0, r0 ;;              // p6: fires, unless a test below says no; p7: does not
        ld8     r41 = [r16], -8                 // counter
        tbit.z.or.andcm p7, p6 = r17, 0         // switched off
        cmp.eq.or.andcm p7, p6 = 0, r38         // no period
        cmp.gt.or.andcm p7, p6 = r0, r19        // not yet due
        extr.u  r20 = r17, 8, 8 ;;
(p6)    cmp.lt.unc p8, p9 = 100, r19            // p8: fires and is late; unc clears p8 if it does not fire
(p6)    mov     r39 = 1
        adds    r20 = 1, r20
(p7)    br.cond.dpnt.few leave ;;
        sxt4    r40 = r40
        zxt1    r20 = r20 ;;
        cmp.eq.or p8, p0 = 0, r20               // or fired wrapped
        dep     r17 = r20, r17, 8, 8
        add     r4 = r38, r40 ;;                // period + skew, ahead of the store in bump
(p8)    dep     r17 = -1, r17, 1, 1
(p8)    mov     r39 = 3 ;;
        st8     [r16] = r17
        br.call.sptk.many b0 = bump ;;
        chk.a.clr r38, period ;;                // go to the recovery code if the period was stored to
summed: ld8.c.clr r37 = [r32] ;;                // loads the due time again if it was stored to
        add     r37 = r37, r4 ;;
        st8     [r32] = r37
leave:  adds    r14 = 24, r12
        adds    r12 = 16, r12
        mov     b0 = r35
        mov     ar.pfs = r34 ;;
        ld8.fill r4 = [r14]
        mov     r8 = r39 ;;
        mov     ar.unat = r36
        br.ret.sptk.many b0 ;;
period: adds    r15 = 8, r32 ;;                 // recovery code of the period and of the sum made with it
        ld8     r38 = [r15] ;;
        add     r4 = r38, r40
        br.cond.sptk.few summed ;;

// bump(r32 address): add 1 to the word. It calls nothing and keeps the frame it is given.
bump:   ld8     r14 = [r32] ;;
        adds    r14 = 1, r14 ;;
        st8     [r32] = r14
        br.ret.sptk.many b0 ;;

// fold(r32 words, r33 how many, r34 start): for each word, three times the sum so far plus the word; answers in r8.
fold:   alloc   r35 = ar.pfs, 3, 2, 0, 0
        mov     r36 = ar.lc
        adds    r33 = -1, r33
        mov     r8 = r34 ;;
        mov     ar.lc = r33 ;;
word:   ld8     r14 = [r32], 8
        shladd  r8 = r8, 1, r8 ;;
        add     r8 = r8, r14
        br.cloop.sptk.few word ;;
        mov     ar.lc = r36
        br.ret.sptk.many b0 ;;

// When it stops, r8 holds 5673118 (0x56909e), the fold of the copy, r9 holds 5, the number of timers re-armed (0, 1, 2,
// 4 and 5), and r10 holds 4, the number of timers marked (0, 1 and 2 for being late, 4 because fired wrapped).
//   due times, in the table and in the copy:  132  199  267  280  400  468  460  520  580  640
//   periods:                                   30   38   47   54   62   70   78   86   94  102
//   fired:                                    252  253  254  254    0    1    1    2    3    4
// The clock is 400 and both counters are 1. The slack of the timers re-armed sums to 14 1/2 ticks; fold starts at 14.
