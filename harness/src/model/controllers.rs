//! The interrupt controller, as its request describes it.
//!
//! "Model it with 1 to 32 ports: line or software trigger, enable, level and
//! register set (6 bits each, higher bits dropped), non-maskable flag, and the
//! handler address as port times bytes per vector plus base."

pub const CONTROLLER_SIZE: usize = 88;
pub const CHOICE_SIZE: usize = 12;
/// Those that a controller has room for.
pub const PORTS: usize = 32;
/// "fields 1 to 39"
pub const CONTROLLER_FIELDS: usize = 39;

pub(super) const BAD_SIZE: u32 = 7;
const BAD_IMAGE: u32 = 8;
const NO_PORT: u32 = 21;
const ADDRESS_TOO_LARGE: u32 = 22;

/// The numbers of the 88 bytes, in their order.
#[derive(Clone, Copy, Debug, PartialEq, Eq)]
pub struct Controller {
    pub ports: u8,
    /// 24 bits.
    pub zero: u32,
    pub vector_bytes: u32,
    pub base: u32,
    pub lines: u32,
    pub software: u32,
    pub enabled: u32,
    pub configs: [u16; PORTS],
}

/// "zero 3, register set 6, non-maskable 1, level 6"
#[derive(Clone, Copy, Debug, PartialEq, Eq)]
pub struct Config {
    pub zero: u16,
    pub set: u16,
    pub non_maskable: bool,
    pub level: u16,
}

impl Config {
    pub fn of(bits: u16) -> Config {
        Config {
            zero: bits >> 13,
            set: bits >> 7 & 0x3F,
            non_maskable: bits >> 6 & 1 == 1,
            level: bits & 0x3F,
        }
    }

    pub fn bits(self) -> u16 {
        self.zero << 13 | self.set << 7 | u16::from(self.non_maskable) << 6 | self.level
    }
}

impl Controller {
    pub fn fresh(ports: u8, vector_bytes: u32, base: u32) -> Controller {
        Controller {
            ports,
            zero: 0,
            vector_bytes,
            base,
            lines: 0,
            software: 0,
            enabled: 0,
            configs: [0; PORTS],
        }
    }

    pub fn unpack(bytes: &[u8; CONTROLLER_SIZE]) -> Controller {
        let (words, _) = bytes.as_chunks();
        let word = |place: usize| u32::from_be_bytes(words[place]);
        let (halves, _) = bytes[24..].as_chunks();
        let mut configs = [0; PORTS];
        for (config, half) in configs.iter_mut().zip(halves) {
            *config = u16::from_be_bytes(*half);
        }
        Controller {
            ports: bytes[0],
            zero: word(0) & 0xFF_FFFF,
            vector_bytes: word(1),
            base: word(2),
            lines: word(3),
            software: word(4),
            enabled: word(5),
            configs,
        }
    }

    pub fn pack(&self) -> [u8; CONTROLLER_SIZE] {
        let mut bytes = [0; CONTROLLER_SIZE];
        let first = u32::from(self.ports) << 24 | self.zero;
        let words = [
            first,
            self.vector_bytes,
            self.base,
            self.lines,
            self.software,
            self.enabled,
        ];
        for (place, word) in words.into_iter().enumerate() {
            bytes[4 * place..4 * place + 4].copy_from_slice(&word.to_be_bytes());
        }
        for (port, config) in self.configs.into_iter().enumerate() {
            bytes[24 + 2 * port..26 + 2 * port].copy_from_slice(&config.to_be_bytes());
        }
        bytes
    }

    pub fn config(&self, port: usize) -> Config {
        Config::of(self.configs[port])
    }
}

/// What is told of the chosen port.
#[derive(Clone, Copy, Debug, PartialEq, Eq)]
pub struct Choice {
    pub port: usize,
    pub config: Config,
    pub address: u32,
}

/// The bit of a port made so.
fn with_bit(bits: u32, port: u32, on: bool) -> u32 {
    bits & !(1 << port) | u32::from(on) << port
}

/// The number that a call returns: 0 for done, or the refusal's.
pub(super) fn number(outcome: Result<(), u32>) -> u32 {
    outcome.err().unwrap_or(0)
}

/// "8 carries it, in C as 8 + 256 × field"
pub(super) fn number_of_field(field: usize) -> u32 {
    BAD_IMAGE + 256 * field as u32
}

pub trait Controllers: Copy {
    /// "a count of ports not 1 to 32" is none.
    fn is_count(self, ports: u32) -> bool {
        (1..=PORTS as u32).contains(&ports)
    }

    /// "bits .. of ports that it lacks are zero"
    fn bits_kept(self, ports: u32, bits: u32) -> bool {
        u64::from(bits) >> ports == 0
    }

    /// "zero bits zero; .. configurations of ports that it lacks are zero"
    fn config_kept(self, ports: u32, port: u32, bits: u16) -> bool {
        bits == 0 || port < ports && Config::of(bits).zero == 0
    }

    /// Whether the field, from 1 on, keeps its rule.
    fn field_kept(self, controller: &Controller, field: usize) -> bool {
        let ports = u32::from(controller.ports);
        match field {
            1 => self.is_count(ports),
            2 => controller.zero == 0,
            5 => self.bits_kept(ports, controller.lines),
            6 => self.bits_kept(ports, controller.software),
            7 => self.bits_kept(ports, controller.enabled),
            8..=CONTROLLER_FIELDS => {
                let port = field - 8;
                self.config_kept(ports, port as u32, controller.configs[port])
            }
            _ => true,
        }
    }

    /// "the lowest field that breaks a rule"
    fn broken_field(self, controller: &Controller) -> Option<usize> {
        (1..=CONTROLLER_FIELDS).find(|&field| !self.field_kept(controller, field))
    }

    fn broken_number(self, field: usize) -> u32 {
        number_of_field(field)
    }

    fn controller(self, vic: &[u8]) -> Result<Controller, u32> {
        let bytes = vic.try_into().map_err(|_| BAD_SIZE)?;
        let controller = Controller::unpack(bytes);
        match self.broken_field(&controller) {
            Some(field) => Err(self.broken_number(field)),
            None => Ok(controller),
        }
    }

    /// "line or software trigger", and enabled.
    fn pending(self, controller: &Controller) -> u32 {
        (controller.lines | controller.software) & controller.enabled
    }

    /// "The chosen port has the largest level among pending ports, then the lowest
    /// index; level 0 never."
    fn chosen_port(self, controller: &Controller) -> Option<usize> {
        let pending = self.pending(controller);
        let mut chosen = None;
        let mut most = 0;
        for port in 0..usize::from(controller.ports) {
            let level = controller.config(port).level;
            if pending >> port & 1 == 1 && level > most {
                chosen = Some(port);
                most = level;
            }
        }
        chosen
    }

    /// "port times bytes per vector plus base"
    fn handler_address(self, controller: &Controller, port: usize) -> u64 {
        port as u64 * u64::from(controller.vector_bytes) + u64::from(controller.base)
    }

    /// "22 AddressTooLarge when the chosen port's handler address would pass 32
    /// bits"
    fn choice(self, controller: &Controller) -> Result<Option<Choice>, u32> {
        let Some(port) = self.chosen_port(controller) else {
            return Ok(None);
        };
        let address = self.handler_address(controller, port);
        let address = address.try_into().map_err(|_| ADDRESS_TOO_LARGE)?;
        let config = controller.config(port);
        Ok(Some(Choice {
            port,
            config,
            address,
        }))
    }

    /// "chosen 16 (0 nothing pending, then all zero; else 1), port 16, level 8,
    /// register set 8, non-maskable 16, handler address 32"
    fn choice_bytes(self, choice: Option<Choice>) -> [u8; CHOICE_SIZE] {
        let mut bytes = [0; CHOICE_SIZE];
        if let Some(choice) = choice {
            bytes[1] = 1;
            bytes[3] = choice.port as u8;
            bytes[4] = choice.config.level as u8;
            bytes[5] = choice.config.set as u8;
            bytes[7] = u8::from(choice.config.non_maskable);
            bytes[8..].copy_from_slice(&choice.address.to_be_bytes());
        }
        bytes
    }

    /// "level and register set (6 bits each, higher bits dropped)"
    fn config_bits(self, level: u32, set: u32, nmi: u32) -> u16 {
        let config = Config {
            zero: 0,
            set: set as u16 & 0x3F,
            non_maskable: self.is_on(nmi),
            level: level as u16 & 0x3F,
        };
        config.bits()
    }

    /// "0 is 0, any other number is 1"
    fn is_on(self, flag: u32) -> bool {
        flag != 0
    }

    /// "21 NoPort for a port the controller lacks"
    fn ported(self, vic: &[u8], port: u32) -> Result<Controller, u32> {
        let controller = self.controller(vic)?;
        if port >= u32::from(controller.ports) {
            return Err(NO_PORT);
        }
        Ok(controller)
    }

    fn set_config(self, controller: &mut Controller, port: u32, bits: u16) {
        controller.configs[port as usize] = bits;
    }

    fn set_line(self, controller: &mut Controller, port: u32, up: bool) {
        controller.lines = with_bit(controller.lines, port, up);
    }

    fn set_software(self, controller: &mut Controller, port: u32, on: bool) {
        controller.software = with_bit(controller.software, port, on);
    }

    fn set_enabled(self, controller: &mut Controller, port: u32, on: bool) {
        controller.enabled = with_bit(controller.enabled, port, on);
    }

    fn sgdma_vic_create(self, vic: &mut [u8], ports: u32, vector_bytes: u32, base: u32) -> u32 {
        if vic.len() != CONTROLLER_SIZE {
            return BAD_SIZE;
        }
        if !self.is_count(ports) {
            return NO_PORT;
        }
        vic.copy_from_slice(&Controller::fresh(ports as u8, vector_bytes, base).pack());
        0
    }

    fn sgdma_vic_configure(self, vic: &mut [u8], port: u32, level: u32, set: u32, nmi: u32) -> u32 {
        number((|| {
            let mut controller = self.ported(vic, port)?;
            self.set_config(&mut controller, port, self.config_bits(level, set, nmi));
            vic.copy_from_slice(&controller.pack());
            Ok(())
        })())
    }

    fn sgdma_vic_enable(self, vic: &mut [u8], port: u32, on: u32) -> u32 {
        number((|| {
            let mut controller = self.ported(vic, port)?;
            self.set_enabled(&mut controller, port, self.is_on(on));
            vic.copy_from_slice(&controller.pack());
            Ok(())
        })())
    }

    fn sgdma_vic_trigger(self, vic: &mut [u8], port: u32, on: u32) -> u32 {
        number((|| {
            let mut controller = self.ported(vic, port)?;
            self.set_software(&mut controller, port, self.is_on(on));
            vic.copy_from_slice(&controller.pack());
            Ok(())
        })())
    }

    fn sgdma_vic_line(self, vic: &mut [u8], port: u32, up: u32) -> u32 {
        number((|| {
            let mut controller = self.ported(vic, port)?;
            self.set_line(&mut controller, port, self.is_on(up));
            vic.copy_from_slice(&controller.pack());
            Ok(())
        })())
    }

    fn sgdma_vic_choose(self, vic: &[u8], answer: &mut [u8]) -> u32 {
        number((|| {
            if vic.len() != CONTROLLER_SIZE || answer.len() != CHOICE_SIZE {
                return Err(BAD_SIZE);
            }
            let controller = self.controller(vic)?;
            answer.copy_from_slice(&self.choice_bytes(self.choice(&controller)?));
            Ok(())
        })())
    }
}
