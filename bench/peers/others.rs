// How many other places enter between two visits of a place. A file that includes this one counts each that enters.

#[derive(Default)]
struct Others {
    largest: u64,
    sum: u64,
    none: u64,
    visits: u64,
    last: Option<u64>,
}

impl Others {
    // One visit, in which the place is counted.
    fn visit(&mut self, let_in: &mut u64) {
        if let Some(last) = self.last {
            let others = *let_in - last;
            self.largest = self.largest.max(others);
            self.sum += others;
            self.none += u64::from(others == 0);
            self.visits += 1;
        }
        *let_in += 1;
        self.last = Some(*let_in);
    }

    fn and(self, more: Others) -> Others {
        Others { largest: self.largest.max(more.largest), sum: self.sum + more.sum, none: self.none + more.none, visits: self.visits + more.visits, last: None }
    }

    fn show(&self) {
        let visits = self.visits.max(1);
        println!("others_largest {} places", self.largest);
        println!("others_mean {:.2} places", self.sum as f64 / visits as f64);
        println!("others_none {} percent", 100 * self.none / visits);
    }
}
