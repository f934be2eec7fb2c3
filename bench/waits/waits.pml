/* All waits of a session on threads: who sleeps, and who wakes him. bench/waits/explore.py searches every interleaving.

   The steps have the names that comments of the code have:

   step      what it does                                            crates/ file: function
   enter     main draws the passes, alone                            turn_desk/src/desk.rt: enter
   start     an actor begins: in a thread of its own, or where none  session_run/src/threads.rt: work_all, seated
             could be made in another's, which comes to it last      (the kit's for_each_mut and join)
   watch     takes the count, then looks whether memory is short     session_run/src/signals.rt: Signals::watch
   try       0 -> 1 in the desk's word, or finds 1                   turn_desk/src/steps.rt: try_turn
   park      sleeps while the desk's word is 1                       turn_desk/src/desk.rt: take
   step      a planner's step, in a turn                             timetable_desk/src/seat.rt: step
   read      a worker's look at its share, in a turn                 timetable_desk/src/seat.rt: read_next
   answer    a worker's work between two turns                       section_worker/src/worker.rt: work
   publish   an answer is published, or is stale, in a turn          timetable_desk/src/seat.rt: publish
   give      0 into the desk's word, and wakes one that parks        turn_desk/src/steps.rt: give_back
   stepped   after a planner's step: count + 1, and wakes all        session_run/src/signals.rt: wake
   sleep     sleeps while the count is the watch's                   session_run/src/signals.rt: Watch::wait
   leave     where memory failed: short; count + 1, and wakes all    session_run/src/signals.rt: leave
   join      main waits until all actors are gone                    the kit's join
   close     main takes the last turn                                turn_desk/src/desk.rt: close

   Memory may fail in each step, read, answer and publish, any number of times: nobody sees whether it failed in the turn or
   just before or after it. Where it fails in enter, main ends alone. First answers (session_run/src/ahead.rt) wait by join
   alone. A gate only delays, as anybody may be delayed between two steps; but a test's may hold planners (GATED).

   What stands for what:
   - Steps on words come one after the other, as those of atomic_table and of `Ordering::SeqCst` do. The system looks at the
     word and puts a thread to sleep in one step, and who wakes finds everybody that sleeps then.
   - An actor is a process. Its number is its place in the session's list: workers, then planners. The list is halved again
     and again; where no thread can be made for a first half, it is worked after the second. So an actor starts when those
     are gone whom its thread works before it. Every choice of threads that aren't made is searched.
   - The count is only compared with a watch's. So a bit for each worker, `changed`, says whether they differ; that is exact
     while the count doesn't rise by 2^32 during a watch. Without a watch the bit is 1. Planners use no watch's count.
   - A share is a section, current or `open`. Its reading is `fresh` until an edit touches it. An edit touches any sections,
     or none, as a question does. Where its worker has left nobody looks at it, and it counts as current.
   - A wake for no reason: a thread goes on at once in place of sleeping, and may be delayed as long as one likes. Of one
     that slept meanwhile, and that no wake has reached, nobody could see more. So such wakes hide no sleep for ever: who
     does sleep here is woken by a wake alone. ONLY_BY_WAKES leaves them out, to show that without them all work ends.
   - `wake_one` wakes any of those that park.

   With FINE each look at what others change, and each change, is a step by itself. Without it `together` joins steps where
   others can't tell, or can't tell what a wake for no reason wouldn't do as well; beside each stands why. The flags that
   leave a wake or a look out, or put two in the other order, go with FINE. */

#ifndef PLANNERS
#define PLANNERS 2
#endif
#ifndef WORKERS
#define WORKERS 2
#endif
#ifndef TASKS
#define TASKS 1 /* of each planner */
#endif
#define ACTORS (PLANNERS + WORKERS) /* at most 6 */
#define BIT(a) (1 << (a))
#define HAS(set, a) (((set) >> (a)) & 1)
#define EVERY_WORKER (BIT(WORKERS) - 1)
#define EVERYBODY (BIT(ACTORS) - 1)

#ifdef FINE
#define together
#else
#define together atomic
#endif

bit word;                    /* the desk's: 1 while somebody has the turn */
bit holds;                   /* whether somebody works on the book */
bit short_;                  /* whether an actor has told that memory is short */
byte parked;                 /* who sleeps on the desk's word */
byte asleep;                 /* who sleeps on the count */
byte changed = EVERY_WORKER; /* the workers whose watch's count isn't the count, and those without a watch */
byte open = EVERY_WORKER;    /* the shares that aren't current */
byte fresh;                  /* the shares with a reading that no edit has touched since */
byte left = PLANNERS * TASKS;
byte gone;                   /* the actors that have left */

/* --- the desk --- */

inline park(me) {
  if
#ifdef NO_LOOK_AT_DESK
  :: parked = parked | BIT(me); !HAS(parked, me)
#else
  :: atomic { word == 1 -> parked = parked | BIT(me) }; !HAS(parked, me)
  :: word != 1
#endif
#ifndef ONLY_BY_WAKES
  :: skip /* for no reason */
#endif
  fi
}

/* Together `try` finds 1 and parks in one step. Who has found 1, and then doesn't sleep, tries again, and is to others as
   if it hadn't tried before. */
inline try(me) {
  do
  :: atomic { word == 0 -> word = 1; assert(!holds); holds = 1; break }
#ifdef FINE
  :: word == 1 -> park(me)
#else
  :: atomic { word == 1 -> parked = parked | BIT(me) }; !HAS(parked, me)
#endif
#ifdef NO_LOOK_AFTER_PARK
     ; word = 1; assert(!holds); holds = 1; break
#endif
  od
}

inline wake_any(sleepers) {
  atomic {
    if
    :: sleepers == 0
    :: HAS(sleepers, 0) -> sleepers = sleepers & ~BIT(0)
    :: HAS(sleepers, 1) -> sleepers = sleepers & ~BIT(1)
    :: HAS(sleepers, 2) -> sleepers = sleepers & ~BIT(2)
    :: HAS(sleepers, 3) -> sleepers = sleepers & ~BIT(3)
    :: HAS(sleepers, 4) -> sleepers = sleepers & ~BIT(4)
    :: HAS(sleepers, 5) -> sleepers = sleepers & ~BIT(5)
    fi
  }
}

inline wake_one() {
#ifdef NO_WAKE_ONE
  skip
#else
  wake_any(parked)
#endif
}

inline give_back() {
#ifdef WAKES_ONE_BEFORE_GIVING
  wake_one(); word = 0
#else
  word = 0; wake_one()
#endif
}

/* Together: who takes the turn between the store and the wake wakes one in his turn; and whom the wake would find that
   parks only then can as well find the word taken a little later. */
inline give() {
  together {
    holds = 0;
#ifdef KEEPS_TURN
    if :: failed :: else -> give_back() fi
#else
    give_back()
#endif
  }
}

/* --- the signals --- */

/* Together: the count, and then the look. Who tells that memory is short between the two makes the look see it, and the
   watch isn't used; another's count + 1 between the two can as well come after both. */
inline watch(me) {
#ifdef LOOKS_BEFORE_COUNT
  sees = short_; changed = changed & ~BIT(me)
#else
  together { changed = changed & ~BIT(me); sees = short_ }
#endif
#ifdef NO_LOOK_AT_SHORT
  ; sees = 0
#endif
}

/* Who is asleep goes on at the head of its loop. */
inline sleep(me) {
  if
#ifdef NO_LOOK_AT_COUNT
  :: asleep = asleep | BIT(me)
#else
  :: atomic { !HAS(changed, me) -> asleep = asleep | BIT(me) }
  :: HAS(changed, me)
#endif
#ifndef ONLY_BY_WAKES
  :: changed = changed | BIT(me) /* for no reason */
#endif
  fi
}

inline count_up() {
#ifdef NO_COUNT
  skip
#else
  changed = EVERY_WORKER
#endif
}

inline wake_all() {
#if defined(WAKES_ONE_OF_ALL)
  wake_any(asleep)
#elif defined(NO_WAKE_ALL)
  skip
#else
  asleep = 0
#endif
}

inline wake() {
#ifdef WAKES_BEFORE_COUNT
  wake_all(); count_up()
#else
  count_up(); wake_all()
#endif
}

inline stepped() {
#ifdef NO_WAKE_AFTER_STEP
  skip
#else
  wake()
#endif
}

/* An actor's last step. Together: who sees that memory is short before the count rises leaves, as if he looked after it;
   whom the wake finds that took its watch after the count was raised is woken for no reason; and whose start waits until
   this actor is gone can as well be delayed. */
inline leave(me) {
  together {
    if
#ifndef NO_TELL
    :: failed -> short_ = 1
#endif
    :: else
    fi;
    if
#ifndef NO_WAKE_WHERE_FAILED
    :: failed -> wake()
#endif
#ifndef NO_WAKE_WHERE_NOT_FAILED
    :: !failed -> wake()
#endif
    :: else
    fi;
    d_step {
      failed = 0; ended = 0;
      changed = changed | (BIT(me) & EVERY_WORKER);
      open = open & ~BIT(me);
      gone = gone | BIT(me)
    }
  }
}

/* --- the book: calls in a turn; nobody else sees it, so they can as well come at the turn's end --- */

inline step() {
  atomic {
    if
    :: failed = 1; made = 0
    :: made == TASKS -> ended = 1; made = 0
    :: made < TASKS ->
       made++; left--;
       do
       :: share < WORKERS ->
          if
          :: !HAS(gone, share) -> d_step { open = open | BIT(share); fresh = fresh & ~BIT(share); share++ }
          :: share++
          fi
       :: else -> break
       od;
       share = 0
    fi
  }
}

/* Reads the section of a share that isn't current; where it is current, tells whether tasks are left. */
inline read(me) {
  atomic {
    if
    :: failed = 1; changed = changed | BIT(me)
    :: HAS(open, me) -> reading = 1; fresh = fresh | BIT(me); changed = changed | BIT(me)
    :: !HAS(open, me) ->
#ifdef NO_LOOK_AT_TASKS
       idle = 1
#else
       if :: left > 0 -> idle = 1 :: else -> ended = 1 fi
#endif
    fi
  }
}

inline publish(me) {
  atomic {
    reading = 0;
    if
    :: failed = 1
    :: HAS(fresh, me) -> open = open & ~BIT(me)
    :: !HAS(fresh, me)
    fi;
    fresh = fresh & ~BIT(me)
  }
}

inline answer(me) {
  if :: failed = 1; reading = 0; fresh = fresh & ~BIT(me) :: skip fi
}

/* --- the actors: the loop of session_run/src/actor.rt: Actor::work --- */

/* Together: a planner looks and tries in one step, and may then overlook that memory is short, as one that has looked
   before. Its wake comes with its change: a later one is to others as this one, and then one for no reason. */
proctype Planner(byte me; byte after) {
  bit failed; bit ended; byte made; byte share;
  do
  :: together {
       !failed && (gone & after) == after -> after = 0; /* start */
       if                                               /* watch */
#ifndef NO_LOOK_BY_PLANNERS
       :: short_ -> made = 0; leave(me); break
#endif
#if defined(FINE) && !defined(NO_LOOK_BY_PLANNERS)
       :: else
#else
       :: skip
#endif
       fi;
#ifdef GATED
       open == 0 || short_;
#endif
       try(me)
     };
     together {
       step();
       give();
       if :: !failed -> stepped() :: else fi;
       if :: ended -> leave(me); break :: else fi
     }
  :: together { failed -> leave(me); break }
  od
}

/* Together: nobody sees an answer before it is published; and whom a wake finds between `give` and `sleep` doesn't sleep,
   as if it had slept and been woken. */
proctype Worker(byte me; byte after) {
  bit failed; bit ended; bit reading; bit idle; bit sees;
  do
  :: together {
       !failed && !reading && !HAS(asleep, me) && (gone & after) == after -> after = 0; /* start, or the end of a sleep */
       watch(me);
       if :: sees -> sees = 0; leave(me); break :: else fi
     };
     together { try(me) };
     together {
       read(me);
       give();
       if
       :: ended -> leave(me); break
       :: idle -> idle = 0; sleep(me)
       :: reading -> answer(me)
       :: else
       fi
     }
  :: together { reading -> try(me) };
     together { publish(me); give() }
  :: together { failed -> leave(me); break }
  od
}

/* --- main's thread --- */

init {
  byte unmade; byte place; byte after; byte from; byte to; byte mid;
  atomic {
    /* enter; and which halves get no thread, by the place where the second half begins */
#ifndef ALL_MADE
    mid = 1;
    do
    :: mid < ACTORS -> if :: unmade = unmade | BIT(mid) :: skip fi; mid++
    :: else -> break
    od;
#endif
    /* whom an actor comes after, by the halves in which it is */
    do
    :: place < ACTORS ->
       from = 0; to = ACTORS; after = 0;
       do
       :: to - from == 1 -> break
       :: else ->
          mid = from + (to - from) / 2;
          if
          :: place < mid ->
#ifndef FIRST_HALF_FIRST
             if :: HAS(unmade, mid) -> after = after | (BIT(to) - BIT(mid)) :: else fi;
#endif
             to = mid
          :: else ->
#ifdef FIRST_HALF_FIRST
             if :: HAS(unmade, mid) -> after = after | (BIT(mid) - BIT(from)) :: else fi;
#endif
             from = mid
          fi
       od;
       if :: place < WORKERS -> run Worker(place, after) :: else -> run Planner(place, after) fi;
       place++
    :: else -> break
    od;
    d_step { unmade = 0; place = 0; after = 0; from = 0; to = 0; mid = 0 }
  }
#ifndef NO_JOIN
  gone == EVERYBODY; /* join */
#endif
  assert(parked == 0 && asleep == 0 && word == 0 && !holds);
  assert(short_ || (left == 0 && open == 0));
  word == 0 -> word = 1 /* close */
}
