//! Errors in the interval timer.

use super::Slip;
use harness::model::{
    timer_control::{CONT, ITO, START, STOP},
    Paper, Timer, Timers,
};

slips! { Timers;

fresh_timer(period: u32) -> Timer {
    "a fresh timer has its counter at 0" => { Timer { counter: 0, ..Paper.fresh_timer(period) } }
    "a fresh timer runs" => { Timer { run: true, ..Paper.fresh_timer(period) } }
    "a fresh timer is continuous" => { Timer { cont: true, ..Paper.fresh_timer(period) } }
    "a fresh timer has its counter in the snapshot" => {
        Timer { snapshot: period, ..Paper.fresh_timer(period) }
    }
    "the period is told as the timeout, one less" => {
        Paper.fresh_timer(period.saturating_sub(1))
    }
}

broken_timer_field(timer: &Timer) -> Option<usize> {
    "the counter may be above the period" => { (timer.zero != 0).then_some(4) }
    "the counter may be one above the period" => {
        let one_less = Timer { counter: timer.counter.saturating_sub(1), ..*timer };
        Paper.broken_timer_field(&one_less)
    }
    "the counter must be below the period" => {
        if timer.counter >= timer.period { Some(2) } else { Paper.broken_timer_field(timer) }
    }
    "the zero bits of a timer are not looked at" => {
        Paper.broken_timer_field(&Timer { zero: 0, ..*timer })
    }
    "the first eight zero bits of a timer are not looked at" => {
        Paper.broken_timer_field(&Timer { zero: timer.zero & 0x0F, ..*timer })
    }
    "the zero bits of a timer are told first" => {
        if timer.zero != 0 { Some(4) } else { Paper.broken_timer_field(timer) }
    }
    "a counter above the period counts against the counter" => {
        Paper.broken_timer_field(timer).map(|field| if field == 2 { 1 } else { field })
    }
    "the zero bits of a timer are its third field" => {
        Paper.broken_timer_field(timer).map(|field| if field == 4 { 3 } else { field })
    }
}

tick(timer: &mut Timer) -> bool {
    "a stopped timer counts" => {
        let run = timer.run;
        timer.run = true;
        let reached = Paper.tick(timer);
        timer.run &= run;
        reached
    }
    "the counter is loaded in the tick in which it reaches zero" => {
        let reached = Paper.tick(timer);
        if reached { timer.counter = timer.period; }
        reached
    }
    "a one-shot timer stops in the tick in which it reaches zero" => {
        let reached = Paper.tick(timer);
        timer.run &= timer.cont || !reached;
        reached
    }
    "a one-shot timer stays at zero" => {
        let stays = timer.run && timer.counter == 0 && !timer.cont;
        let reached = Paper.tick(timer);
        if stays { timer.counter = 0; }
        reached
    }
    "a continuous timer stops" => {
        let loads = timer.run && timer.counter == 0;
        let reached = Paper.tick(timer);
        timer.run &= !loads;
        reached
    }
    "CONT is taken the other way about" => {
        let loads = timer.run && timer.counter == 0;
        let cont = timer.cont;
        let reached = Paper.tick(timer);
        if loads { timer.run = !cont; }
        reached
    }
    "TO is set when the counter is loaded" => {
        let (loads, to) = (timer.run && timer.counter == 0, timer.to);
        Paper.tick(timer);
        timer.to = to || loads;
        loads
    }
    "TO is not set" => {
        let to = timer.to;
        let reached = Paper.tick(timer);
        timer.to = to;
        reached
    }
    "TO goes down when the counter does not reach zero" => {
        let reached = Paper.tick(timer);
        timer.to = reached;
        reached
    }
    "TO is set only with ITO" => {
        let (to, ito) = (timer.to, timer.ito);
        let reached = Paper.tick(timer);
        timer.to = to || reached && ito;
        reached
    }
    "a load with period 0 reaches no zero" => {
        let loads = timer.run && timer.counter == 0;
        let to = timer.to;
        let reached = Paper.tick(timer) && !loads;
        timer.to = to || reached;
        reached
    }
    "zero is reached only once until TO is cleared" => {
        let to = timer.to;
        Paper.tick(timer) && !to
    }
    "a tick takes the snapshot along" => {
        let reached = Paper.tick(timer);
        timer.snapshot = timer.counter;
        reached
    }
}

leap(timer: &mut Timer, ticks: u32) -> u32 {
    "a turn has as many ticks as the period says" => {
        let turn = timer.period.max(1);
        if timer.run && timer.cont {
            let turns = ticks / turn;
            timer.to |= turns > 0;
            return turns + Paper.leap(timer, ticks % turn);
        }
        Paper.leap(timer, ticks)
    }
    "many ticks set no TO" => {
        let to = timer.to;
        let reached = Paper.leap(timer, ticks);
        timer.to = to;
        reached
    }
    "many times are told as one" => { Paper.leap(timer, ticks).min(1) }
    "the times are told with 16 bits" => { Paper.leap(timer, ticks) & 0xFFFF }
    "the times are told with 31 bits" => { Paper.leap(timer, ticks) & 0x7FFF_FFFF }
    "one tick too many passes" => {
        let reached = Paper.leap(timer, ticks);
        reached.wrapping_add(u32::from(Paper.tick(timer)))
    }
    "ticks are counted with 31 bits" => { Paper.leap(timer, ticks & 0x7FFF_FFFF) }
    "a one-shot timer that has stopped goes on" => {
        let cont = timer.cont;
        timer.cont = true;
        let reached = Paper.leap(timer, ticks);
        timer.cont = cont;
        reached
    }
}

timer_control(timer: &Timer) -> u16 {
    "control reads START while the timer runs" => {
        Paper.timer_control(timer) | if timer.run { START } else { 0 }
    }
    "ITO and CONT are exchanged in control" => {
        let (ito, cont) = (timer.cont, timer.ito);
        Paper.timer_control(&Timer { ito, cont, ..*timer })
    }
    "control reads STOP while the timer is stopped" => {
        Paper.timer_control(timer) | if timer.run { 0 } else { STOP }
    }
}

timer_status(timer: &Timer) -> u16 {
    "TO and RUN are exchanged in status" => {
        u16::from(timer.run) | u16::from(timer.to) << 1
    }
    "status reads TO only with ITO" => {
        Paper.timer_status(&Timer { to: timer.to && timer.ito, ..*timer })
    }
    "RUN is not read" => { Paper.timer_status(&Timer { run: false, ..*timer }) }
}

timer_register(timer: &Timer, offset: u32) -> Result<u16, u32> {
    "the halves of the period are exchanged" => {
        Paper.timer_register(timer, match offset { 2 => 3, 3 => 2, _ => offset })
    }
    "the halves of the snapshot are exchanged" => {
        Paper.timer_register(timer, match offset { 4 => 5, 5 => 4, _ => offset })
    }
    "the counter is read in the place of the snapshot" => {
        Paper.timer_register(&Timer { snapshot: timer.counter, ..*timer }, offset)
    }
    "snaph is no register to read" => {
        if offset > 4 { Err(16) } else { Paper.timer_register(timer, offset) }
    }
    "offset 6 is read as status" => {
        Paper.timer_register(timer, if offset == 6 { 0 } else { offset })
    }
    "the offset to read is cut to a byte" => { Paper.timer_register(timer, offset & 0xFF) }
    "1 is given for 16" => { Paper.timer_register(timer, offset).map_err(|_| 1) }
}

write_timer_status(timer: &mut Timer, value: u16) -> () {
    "only a 0 in bit 0 clears TO" => { timer.to &= value & 1 == 1; }
    "only a 1 in bit 0 clears TO" => { timer.to &= value & 1 == 0; }
    "a write to status stops the timer" => {
        timer.to = false;
        timer.run = false;
    }
    "a write to status leaves TO" => {}
}

write_timer_control(timer: &mut Timer, value: u16) -> () {
    "START and STOP together start" => {
        let value = if value & START != 0 { value & !STOP } else { value };
        Paper.write_timer_control(timer, value)
    }
    "START and STOP together leave RUN" => {
        let both = value & START != 0 && value & STOP != 0;
        Paper.write_timer_control(timer, if both { value & !(START | STOP) } else { value })
    }
    "neither START nor STOP stops" => {
        timer.run &= value & START != 0;
        Paper.write_timer_control(timer, value)
    }
    "START loads the counter" => {
        if value & START != 0 && value & STOP == 0 { timer.counter = timer.period; }
        Paper.write_timer_control(timer, value)
    }
    "START loads a counter at zero" => {
        if value & START != 0 && value & STOP == 0 && timer.counter == 0 {
            timer.counter = timer.period;
        }
        Paper.write_timer_control(timer, value)
    }
    "START clears TO" => {
        timer.to &= value & START == 0;
        Paper.write_timer_control(timer, value)
    }
    "STOP loads the counter" => {
        if value & STOP != 0 { timer.counter = timer.period; }
        Paper.write_timer_control(timer, value)
    }
    "a write that stops stores nothing" => {
        let (ito, cont) = (timer.ito, timer.cont);
        Paper.write_timer_control(timer, value);
        if value & STOP != 0 { [timer.ito, timer.cont] = [ito, cont]; }
    }
    "CONT can only be set" => {
        let cont = timer.cont;
        Paper.write_timer_control(timer, value);
        timer.cont |= cont;
    }
    "ITO is stored as CONT and CONT as ITO" => {
        let flags = if value & ITO != 0 { CONT } else { 0 } | if value & CONT != 0 { ITO } else { 0 };
        Paper.write_timer_control(timer, value & !(ITO | CONT) | flags)
    }
    "bit 4 stops too" => {
        Paper.write_timer_control(timer, if value & 16 != 0 { value | STOP } else { value })
    }
}

write_period(timer: &mut Timer, period: u32) -> () {
    "a period write does not load the counter" => {
        timer.period = period;
        timer.counter = timer.counter.min(period);
        timer.run = false;
    }
    "a period write does not stop" => {
        keeping!(timer.run, Paper.write_period(timer, period));
    }
    "a period write clears TO" => {
        Paper.write_period(timer, period);
        timer.to = false;
    }
    "a period write that loads 0 sets TO" => {
        Paper.write_period(timer, period);
        timer.to |= period == 0;
    }
    "a period write takes a snapshot" => {
        Paper.write_period(timer, period);
        timer.snapshot = period;
    }
    "a period that is the same changes nothing" => {
        if period != timer.period { Paper.write_period(timer, period) }
    }
}

new_period(timer: &Timer, offset: u32, value: u16) -> u32 {
    "a period write clears the other half" => {
        Paper.new_period(&Timer { period: 0, ..*timer }, offset, value)
    }
    "the halves of a written period are exchanged" => {
        Paper.new_period(timer, 5 - offset, value)
    }
    "the other half is that of the counter" => {
        Paper.new_period(&Timer { period: timer.counter, ..*timer }, offset, value)
    }
}

write_snapshot(timer: &mut Timer, offset: u32, value: u16) -> () {
    "a snapshot takes the half that was written" => {
        let mask = if offset == 4 { 0xFFFF } else { 0xFFFF_0000 };
        timer.snapshot = timer.snapshot & !mask | timer.counter & mask;
    }
    "the value is written to the snapshot" => {
        timer.snapshot = u32::from(value) << (16 * (offset - 4));
    }
    "a snapshot stops the timer" => {
        Paper.write_snapshot(timer, offset, value);
        timer.run = false;
    }
    "only a timer that runs gives a snapshot" => {
        if timer.run { Paper.write_snapshot(timer, offset, value) }
    }
    "only snapl takes a snapshot" => {
        if offset == 4 { Paper.write_snapshot(timer, offset, value) }
    }
    "the snapshot is what has passed" => { timer.snapshot = timer.period - timer.counter; }
}

write_timer_register(timer: &mut Timer, offset: u32, value: u16) -> Result<(), u32> {
    "a write past the registers is ignored" => {
        Paper.write_timer_register(timer, offset, value).or(Ok(()))
    }
    "offset 6 is written as snaph" => {
        Paper.write_timer_register(timer, if offset == 6 { 5 } else { offset }, value)
    }
    "the offset to write is cut to a byte" => {
        Paper.write_timer_register(timer, offset & 0xFF, value)
    }
    "17 is given for 16" => { Paper.write_timer_register(timer, offset, value).map_err(|_| 17) }
}

timer_line(timer: &Timer) -> bool {
    "the line is TO" => { timer.to }
    "the line is ITO" => { timer.ito }
    "TO or ITO raises the line" => { timer.to || timer.ito }
    "the line goes down while the timer is stopped" => { Paper.timer_line(timer) && timer.run }
}

elapsed(timer: &Timer, earlier: u32, later: u32) -> Result<u32, u32> {
    "the time is later minus earlier" => { Paper.elapsed(timer, later, earlier) }
    "the time past zero is one less" => {
        let ticks = Paper.elapsed(timer, earlier, later)?;
        Ok(if earlier < later { ticks - 1 } else { ticks })
    }
    "the time past zero is 0" => {
        Paper.elapsed(timer, earlier, later).map(|_| earlier.saturating_sub(later))
    }
    "the period is not looked at" => { Ok(earlier.wrapping_sub(later)) }
    "the largest period but one will do" => {
        if timer.period == u32::MAX - 1 { Ok(earlier.wrapping_sub(later)) }
        else { Paper.elapsed(timer, earlier, later) }
    }
    "only a continuous timer tells the time" => {
        if timer.cont { Paper.elapsed(timer, earlier, later) } else { Err(17) }
    }
    "only a timer that runs tells the time" => {
        if timer.run { Paper.elapsed(timer, earlier, later) } else { Err(17) }
    }
    "16 is given for 17" => { Paper.elapsed(timer, earlier, later).map_err(|_| 16) }
}

timer_with_value(timer: &[u8], value: &[u8]) -> Result<Timer, u32> {
    "8 comes before the size of the value" => {
        Paper.timer(timer)?;
        Paper.timer_with_value(timer, value)
    }
    "8 is given for a value of another size" => {
        Paper.timer_with_value(timer, value).map_err(|number| {
            if number == 7 && value.len() != 4 { 8 } else { number }
        })
    }
}

}
