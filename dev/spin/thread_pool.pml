/* The waits of crates/thread_pool, for spin: a calling thread and its workers, each step with the line of code that
   it stands for. dev/test_wakeups.py has all of it searched, and sees that each function below has the lines of its
   function in Rust, all of them in their order.

   A step is what one thread does to memory that others see: it takes a lock or gives it back, reads or adds to a
   count of notifications, sleeps or is woken. What is read or written under a lock alone is part of the step before
   or behind. A lock is free or held, since std's lock is not what is searched here; of the condition variable each
   step of std is one here, as the core crate's chan.rt has them. There the low 32 bits of the count are compared,
   here the whole of it: a search has no 4,294,967,296 notifications between two reads.

   Searched for: no state in which all wait (a wake-up that is lost), no assertion that fails (a job that is carried
   out twice, or lost), and no round that goes on for ever (the end comes). Each of these has to be found in a model
   that is wrong: the names behind #ifdef say what is. Any thread but the first worker's may fail to start.

   The tests search one worker in two rounds whole, 110,325 states, and two workers in one, 1,686,340. Two workers in
   two rounds were searched once, with no false wake: 21,854,305 states, 1 GB, 168 s, and no error. The second
   worker multiplied the states by two hundred; with a third, memory would not hold them. */

#ifndef WORKERS
#define WORKERS 1
#endif
/* How often the calling thread gives jobs and waits for them. */
#ifndef ROUNDS
#define ROUNDS 2
#endif
/* How often who waits looks before it sleeps. */
#ifndef LOOKS
#define LOOKS 1
#endif
/* How many sleeps may end with no notification. */
#ifndef FALSE_WAKES
#define FALSE_WAKES 1
#endif
#define THREADS (WORKERS + 1)
#define JOBS (WORKERS * ROUNDS)
#define CALLER WORKERS
#define NONE 255

/* A lock, and the condition variable of the value that it guards. */
typedef Monitor {
    bool held;
    byte notifications;
    byte sleepers;
    bool asleep[THREADS]
};

Monitor post[WORKERS];      /* mailbox.rt: post */
byte job[WORKERS] = NONE;   /* mailbox.rt: job */
bool over[WORKERS];         /* mailbox.rt: over */
Monitor open;               /* pool.rt: open */
byte left;                  /* the value of it */

byte false_wakes = FALSE_WAKES;
/* What is asserted of: how often each job was given and not refused, carried out, and taken back. */
byte given[JOBS];
byte carried[JOBS];
byte back[JOBS];
byte gone;
bool there[WORKERS];        /* whose threads were started */
bool all_gone;              /* run_workers has ended */

inline lock(m) {
    atomic { !m.held -> m.held = true }
}

inline unlock(m) {
    m.held = false
}

/* core chan.rt: pub fn notify_all */
inline notify_all(m) {
    m.notifications++;                          /* self.seq.fetch_add(1, Ordering::SeqCst); */
    if
    :: m.sleepers != 0 ->                       /* if self.sleepers.load(Ordering::SeqCst) != 0 { */
        d_step {                                /* self.seq.wake_all(); */
            woken = 0;
            do
            :: woken < THREADS -> m.asleep[woken] = false; woken++
            :: else -> break
            od;
            woken = 0
        }
    :: else
    fi
}

/* core chan.rt: pub fn wait */
inline sleep_on(m) {
    read = m.notifications;                     /* let seq = &self.seq; */
                                                /* let seen = seq.load(Ordering::SeqCst); */
    unlock(m);                                  /* let lock = MutexGuard::unlock(guard); */
    m.sleepers++;                               /* self.sleepers.fetch_add(1, Ordering::SeqCst); */
    atomic {                                    /* seq.park(rt, (seen & 0xffff_ffff) as u32); */
        if
        :: m.notifications == read -> m.asleep[me] = true
        :: else
        fi
    };
    if
    :: !m.asleep[me]
    :: atomic { m.asleep[me] && false_wakes > 0 -> false_wakes--; m.asleep[me] = false }
    fi;
    m.sleepers--;                               /* self.sleepers.fetch_sub(1, Ordering::SeqCst); */
    lock(m)                                     /* lock.lock(rt) */
}

/* monitor.rt: fn tell */
inline tell(m) {
#ifdef NOTIFIES_AFTER_THE_LOCK
    unlock(m);
    notify_all(m)
#else
    notify_all(m);                              /* self.changed.notify_all(); */
    unlock(m)                                   /* drop(held); */
#endif
}

/* monitor.rt: fn look */
inline look(m) {
    looked = 0;
    do
    :: looked < LOOKS ->                        /* for _ in 0..self.looks { */
        looked++;
        if
        :: m.notifications != seen -> break     /* if self.changed.notifications() != seen { */
                                                /* return; */
        :: else                                 /* spin_loop(); */
        fi
    :: looked == LOOKS -> break
    od;
    looked = 0
}

/* monitor.rt: fn wait */
inline wait(m) {
    seen = m.notifications;                     /* let seen = self.changed.notifications(); */
    unlock(m);                                  /* let lock = MutexGuard::unlock(held); */
    look(m);                                    /* self.look(seen); */
    lock(m);                                    /* let held = lock.lock(rt); */
#ifdef SLEEPS_WITHOUT_ANOTHER_LOOK
    sleep_on(m);
#else
    if
    :: m.notifications != seen                  /* if self.changed.notifications() != seen { */
                                                /* return held; */
    :: else ->
        sleep_on(m)                             /* self.changed.wait(rt, held) */
    fi;
#endif
    seen = 0;
    read = 0
}

/* mailbox.rt: fn put */
inline put(w, j) {
    atomic {
        lock(post[w]);                          /* let mut post = self.post.lock(rt); */
        refused = over[w] || job[w] != NONE;
        if
        :: refused ->                           /* if post.over || post.job.is_some() { */
            unlock(post[w])                     /* return Some(job); */
        :: else ->
            job[w] = j;                         /* post.job = Some(job); */
            given[j]++
        fi
    };
    if
    :: refused
    :: else ->
        tell(post[w])                           /* self.post.tell(post); */
    fi                                          /* None */
}

/* mailbox.rt: fn take_back */
inline take_out(w) {
    atomic {                                    /* self.post.lock(rt).job.take() */
        lock(post[w]);
        mine = job[w];
#ifndef LEAVES_WHAT_IT_TAKES_BACK
        job[w] = NONE;
#endif
        unlock(post[w])
    }
}

/* mailbox.rt: fn receive */
inline receive(w) {
    lock(post[w]);                              /* let mut post = self.post.lock(rt); */
    do                                          /* for _ in rt.forever() { */
    :: true ->
#ifdef GOES_WITH_A_JOB_THERE
        if
        :: over[w] -> mine = NONE; break
        :: else
        fi;
#endif
        d_step {
            mine = job[w];                      /* let job = post.job.take(); */
            job[w] = NONE
        };
        if
        :: mine != NONE || over[w] -> break     /* if job.is_some() || post.over { */
                                                /* return job; */
        :: else
        fi;
        wait(post[w])                           /* post = self.post.wait(rt, post); */
    od;
    unlock(post[w])
}

/* mailbox.rt: fn close */
inline close(w) {
    atomic {
        lock(post[w]);                          /* let mut post = self.post.lock(rt); */
        over[w] = true                          /* post.over = true; */
    };
    tell(post[w])                               /* self.post.tell(post); */
}

/* pool.rt: fn count */
inline count() {
    atomic {
        lock(open);                             /* let mut open = self.open.lock(rt); */
        left++;                                 /* *open = open.saturating_add(1); */
        unlock(open)
    }
}

/* pool.rt: fn carried_out */
inline carried_out() {
    atomic {
        lock(open);                             /* let mut open = self.open.lock(rt); */
        assert(left > 0);
        left--                                  /* *open = open.saturating_sub(1); */
    };
    if
    :: left == 0 ->                             /* if *open == 0 { */
        tell(open)                              /* self.open.tell(open); */
    :: else ->
        unlock(open)
    fi
}

/* pool.rt: fn give */
inline give(w, j) {
                                                /* let Some(mailbox) = self.mailboxes.get(worker) else { */
                                                /* return Some(job); */
#ifdef COUNTS_AFTER_IT_GIVES
    put(w, j);
    if
    :: refused
    :: else -> count()
    fi
#else
    count();                                    /* self.count(rt); */
    put(w, j);                                  /* let refused = mailbox.put(rt, job); */
    if
    :: refused ->                               /* if refused.is_some() { */
        carried_out()                           /* self.carried_out(rt); */
    :: else                                     /* refused */
    fi
#endif
}

/* pool.rt: fn take_back */
inline take_back(w) {
    take_out(w);                                /* let job = self.mailboxes.get(worker)?.take_back(rt); */
    if
    :: mine != NONE ->                          /* if job.is_some() { */
        back[mine]++;
        carried_out()                           /* self.carried_out(rt); */
    :: else                                     /* job */
    fi;
    mine = NONE
}

/* pool.rt: fn rest */
inline rest() {
    lock(open);                                 /* let mut open = self.open.lock(rt); */
    do                                          /* for _ in rt.forever() { */
    :: left == 0 -> break                       /* if *open == 0 { */
                                                /* return; */
    :: else ->
        wait(open)                              /* open = self.open.wait(rt, open); */
    od;
    unlock(open)
}

/* pool.rt: fn end */
inline end_all() {
    at = 0;
    do
    :: at < WORKERS ->                          /* for mailbox in &self.mailboxes { */
        close(at);                              /* mailbox.close(rt); */
        at++
    :: else -> break
    od;
    at = 0
}

/* Each job that was given so far, but those that are still under way, was carried out or taken back, once. */
inline see(all) {
    d_step {
        at = 0;
        do
        :: at < JOBS ->
            assert(carried[at] + back[at] <= given[at]);
            assert(!(all) || carried[at] + back[at] == given[at]);
            at++
        :: else -> break
        od;
        at = 0
    }
}

/* workers.rt: fn attend */
inline attend() {
    do                                          /* for _ in rt.forever() { */
    :: true ->
        receive(me);                            /* let Some(job) = pool.receive(rt, worker) else { */
        if
        :: mine == NONE -> break                /* return; */
        :: else
        fi;
        d_step {
            carried[mine]++;                    /* carry_out(job); */
            mine = NONE
        };
        carried_out()                           /* pool.carried_out(rt); */
    od
}

/* A thread of the pool. */
proctype worker(byte me) {
    byte seen, read, looked, woken, mine;
    attend();
    gone++
}

/* workers.rt: pub fn run_workers */
proctype run_workers() {
    byte seen, read, looked, woken, mine, w, started, me = 0;
    there[0] = true;
                                                /* thread::scope( */
                                                /* thread::scope_env(), */
                                                /* rt, */
                                                /* |scope| -> () */
                                                /* let mut started = Vec::new(pool.allocator()); */
    for (w : 1 .. WORKERS - 1) {                /* for worker in 1..pool.workers() { */
        if                                      /* let spawned = scope.spawn( */
                                                /* move || -> () */
                                                /* { attend(rt, carry_out, pool, worker) }, */
#ifdef ALL_AT_THE_FIRST_MAILBOX
        :: atomic { run worker(0); there[w] = true; started++ }
#else
        :: atomic { run worker(w); there[w] = true; started++ }
#endif
                                                /* if let Ok(handle) = spawned { */
                                                /* let _ = started.push(handle); */
        :: true
        fi
    }
    attend();                                   /* attend(rt, carry_out, pool, 0); */
    gone == started;                            /* for handle in started { */
                                                /* handle.join(rt); */
    all_gone = true
}

/* Who has the pool: it gives jobs to some of the workers, takes back the jobs of some, those of workers that are not there
   among them, waits for the rest, and ends the pool, maybe with jobs under way. */
active proctype calling() {
    byte seen, read, looked, woken, mine, at, w, round, me = CALLER;
    bool refused;
    mine = NONE;
    run run_workers();
    for (round : 0 .. ROUNDS - 1) {
        for (w : 0 .. WORKERS - 1) {
            if
            :: give(w, round * WORKERS + w); assert(!refused)
            :: true
            fi
        }
        if
        :: true
        :: give(0, round * WORKERS)             /* perhaps one too many, which is refused, or given again */
        fi;
        for (w : 0 .. WORKERS - 1) {
            if
            :: take_back(w)
            :: there[w]
            fi
        }
        if
        :: rest(); see(true)
        :: round == ROUNDS - 1
        fi
    }
    end_all();
    all_gone;
    see(true);
    assert(left == 0)
}
