//! Cuts a list that fails down to a short one that fails too: whoever looks for the fault has less to read.

/// Leaves elements out and puts simpler ones in their place, as long as what is left fails. In the end no element can be
/// left out and none be simpler. Whatever `simpler` gives for an element must be closer to some end.
pub fn cut<T: Clone>(list: &[T], simpler: impl Fn(&T) -> Vec<T>, mut fails: impl FnMut(&[T]) -> bool) -> Vec<T> {
    let mut list = list.to_vec();
    loop {
        leave_out(&mut list, &mut fails);
        if !simplify(&mut list, &simpler, &mut fails) {
            return list;
        }
    }
}

/// Leaves out parts: a half of the list, a quarter and so on, and single elements in the end, until none can be.
fn leave_out<T: Clone>(list: &mut Vec<T>, fails: &mut impl FnMut(&[T]) -> bool) {
    let mut size = list.len().div_ceil(2).max(1);
    loop {
        let before = list.len();
        let mut at = 0;
        while at < list.len() {
            let shorter = [&list[..at], &list[(at + size).min(list.len())..]].concat();
            if fails(&shorter) {
                *list = shorter;
            } else {
                at += size;
            }
        }
        if size == 1 && list.len() == before {
            return;
        }
        size = (size / 2).max(1);
    }
}

/// Puts simpler elements in the place of others. Could any be?
fn simplify<T: Clone>(list: &mut [T], simpler: &impl Fn(&T) -> Vec<T>, fails: &mut impl FnMut(&[T]) -> bool) -> bool {
    let mut any = false;
    for place in 0..list.len() {
        let mut choices = simpler(&list[place]).into_iter();
        while let Some(choice) = choices.next() {
            let kept = std::mem::replace(&mut list[place], choice);
            if fails(list) {
                any = true;
                choices = simpler(&list[place]).into_iter();
            } else {
                list[place] = kept;
            }
        }
    }
    any
}

/// Smaller numbers: 0, a half, three quarters and so on, up to one less.
pub fn smaller(number: u64) -> impl Iterator<Item = u64> {
    (0..64).map(move |bits| number >> bits).take_while(|&less| less > 0).map(move |less| number - less)
}

/// Whether lists are cut as they should be: of 1,000 numbers only three matter, and these by being no less than some.
pub fn agreement() -> Result<String, String> {
    let list: Vec<u64> = (0..1_000).map(|place| place * 7_919 % 1_000 + 100).collect();
    let least = [40, 90, 3];
    let fails = |list: &[u64]| {
        let mut due = least.iter().peekable();
        list.iter().for_each(|number| {
            due.next_if(|&&least| *number >= least);
        });
        due.peek().is_none()
    };
    let found = cut(&list, |&number| smaller(number).collect(), fails);
    if found == least {
        Ok(format!("{} numbers cut to {found:?}", list.len()))
    } else {
        Err(format!("{} numbers cut to {found:?}, not to {least:?}", list.len()))
    }
}
