//! Pictures of sets, plans in sets, and facts about networks.
use crate::{parsed, raw, Error, IpSet, Network};

/// The numbers of the options, as in `include/ipnet.h`.
const FREE: u32 = 4;
const UTF8: u32 = 1;
const LINES: u32 = 0;
const JSON: u32 = 1;
/// The byte of the family IPv6, for the network around all IPv6 addresses.
const IPV6: u8 = 1;

/// The network that a picture shows.
#[derive(Clone, Copy, Debug, Default, PartialEq, Eq)]
pub enum Shown {
    /// The smallest network around all IPv4 addresses, or around all IPv6 addresses if there are no others.
    #[default]
    FirstFamily,
    /// The smallest network around all IPv6 addresses.
    Ipv6,
    /// This network. Its host bits do not matter.
    Network(Network),
}

impl Shown {
    fn to_bytes(self) -> raw::Bytes {
        let mut bytes = raw::Bytes::default();
        match self {
            Shown::FirstFamily => {}
            Shown::Ipv6 => bytes.push(IPV6),
            Shown::Network(network) => bytes = network.to_bytes(),
        }
        bytes
    }
}

/// The colours of a map.
#[derive(Clone, Copy, Debug, Default, PartialEq, Eq)]
pub enum Theme {
    /// Dark if the reader prefers dark pages, and else light.
    #[default]
    Auto,
    /// Dark texts on a light page.
    Light,
    /// Light texts on a dark page.
    Dark,
}

/// How a map is drawn.
#[derive(Clone, Copy, Debug, Default, PartialEq, Eq)]
pub struct MapOptions {
    /// The network that is shown.
    pub shown: Shown,
    /// The colours.
    pub theme: Theme,
    /// Whether the free blocks are outlined.
    pub free: bool,
}

impl MapOptions {
    fn number(self) -> u32 {
        let theme = match self.theme {
            Theme::Auto => 0,
            Theme::Light => 1,
            Theme::Dark => 2,
        };
        theme + if self.free { FREE } else { 0 }
    }
}

/// The most marks in a row of a bar.
#[derive(Clone, Copy, Debug, Default, PartialEq, Eq)]
pub enum RowWidth {
    /// 4 marks.
    Four,
    /// 8 marks.
    Eight,
    /// 16 marks.
    Sixteen,
    /// 32 marks, which fit a line of 80 columns.
    #[default]
    ThirtyTwo,
    /// 64 marks.
    SixtyFour,
}

/// How a bar is drawn.
#[derive(Clone, Copy, Debug, Default, PartialEq, Eq)]
pub struct BarOptions {
    /// The network that is shown.
    pub shown: Shown,
    /// The most marks in a row.
    pub width: RowWidth,
    /// Whether the marks are shades in UTF-8, and not ASCII.
    pub utf8: bool,
}

impl BarOptions {
    fn number(self) -> u32 {
        let width = match self.width {
            RowWidth::Four => 4,
            RowWidth::Eight => 8,
            RowWidth::Sixteen => 16,
            RowWidth::ThirtyTwo => 32,
            RowWidth::SixtyFour => 64,
        };
        width + if self.utf8 { UTF8 } else { 0 }
    }
}

impl IpSet {
    /// A map of the set, as a document of SVG. Fails with [`Error::NoAddress`] if no network is named and there is no
    /// address to draw.
    ///
    /// ```
    /// use ipnet_proved::{Error, IpSet, MapOptions, Shown};
    ///
    /// let set: IpSet = "10.20.0.0/20".parse()?;
    /// let shown = Shown::Network("10.20.0.0/16".parse()?);
    /// assert!(set.map(MapOptions { shown, free: true, ..MapOptions::default() })?.starts_with("<svg "));
    /// assert_eq!(IpSet::from_text("")?.map(MapOptions::default()), Err(Error::NoAddress));
    /// # Ok::<(), Error>(())
    /// ```
    pub fn map(&self, options: MapOptions) -> Result<String, Error> {
        raw::draw(self.as_bytes(), options.shown.to_bytes().as_slice(), options.number(), raw::ipnet_set_map)
    }

    /// Like [`IpSet::map`], for what changes if this set becomes the other. A change is never hidden, however small.
    ///
    /// ```
    /// use ipnet_proved::{Error, IpSet, MapOptions};
    ///
    /// let (old, new): (IpSet, IpSet) = ("10.0.0.0/24".parse()?, "10.0.0.0/23".parse()?);
    /// assert!(old.comparison_map(&new, MapOptions::default())?.contains("256 addresses only in the second"));
    /// # Ok::<(), Error>(())
    /// ```
    pub fn comparison_map(&self, other: &IpSet, options: MapOptions) -> Result<String, Error> {
        let (images, shown) = ((self.as_bytes(), other.as_bytes()), options.shown.to_bytes());
        raw::draw_both(images, shown.as_slice(), options.number(), raw::ipnet_set_comparison_map)
    }

    /// A bar of the set: at most 16 rows of text for a network. Fails as [`IpSet::map`] does.
    ///
    /// ```
    /// use ipnet_proved::{BarOptions, Error, IpSet, Shown};
    ///
    /// let set: IpSet = "10.0.0.0/31".parse()?;
    /// let shown = Shown::Network("10.0.0.0/30".parse()?);
    /// let bar = set.bar(BarOptions { shown, ..BarOptions::default() })?;
    /// assert_eq!(bar.lines().nth(1), Some("10.0.0.0/30 |##..| 50.0 %"));
    /// # Ok::<(), Error>(())
    /// ```
    pub fn bar(&self, options: BarOptions) -> Result<String, Error> {
        raw::draw(self.as_bytes(), options.shown.to_bytes().as_slice(), options.number(), raw::ipnet_set_bar)
    }

    /// Like [`IpSet::bar`], for two sets. A mark is `-` if only this set has some of its addresses that the other lacks,
    /// `+` if only the other has, `!` if both have, and `=` if both sets have the same of its addresses.
    ///
    /// ```
    /// use ipnet_proved::{BarOptions, Error, IpSet};
    ///
    /// let (old, new): (IpSet, IpSet) = ("10.0.0.0/31".parse()?, "10.0.0.1/32".parse()?);
    /// let bar = old.comparison_bar(&new, BarOptions::default())?;
    /// assert_eq!(bar.lines().nth(1), Some("10.0.0.0/31 |-=| -1 +0"));
    /// # Ok::<(), Error>(())
    /// ```
    pub fn comparison_bar(&self, other: &IpSet, options: BarOptions) -> Result<String, Error> {
        let (images, shown) = ((self.as_bytes(), other.as_bytes()), options.shown.to_bytes());
        raw::draw_both(images, shown.as_slice(), options.number(), raw::ipnet_set_comparison_bar)
    }

    /// IPv4 networks in the set, one for each of the prefix lengths and in their order. No two of them share an address,
    /// and whatever further networks could be placed in the set beside them can still be placed. Fails with
    /// [`Error::NoPlace`] if no such networks exist, and with [`Error::PrefixTooLong`] if a length is above 32.
    ///
    /// ```
    /// use ipnet_proved::{Error, IpSet, Network};
    ///
    /// let free: IpSet = "10.0.0.0/24".parse()?;
    /// let planned: [Network; 2] = ["10.0.0.0/26".parse()?, "10.0.0.128/25".parse()?];
    /// assert_eq!(free.plan_ipv4(&[26, 25])?, planned);
    /// assert_eq!(free.plan_ipv4(&[25, 25, 27]), Err(Error::NoPlace));
    /// assert_eq!(free.plan_ipv4(&[33]), Err(Error::PrefixTooLong));
    /// # Ok::<(), Error>(())
    /// ```
    pub fn plan_ipv4(&self, lengths: &[u8]) -> Result<Vec<Network>, Error> {
        parsed(&raw::set_plan(self.as_bytes(), 4, lengths)?)
    }

    /// Like [`IpSet::plan_ipv4`], for IPv6 networks and lengths of at most 128.
    pub fn plan_ipv6(&self, lengths: &[u8]) -> Result<Vec<Network>, Error> {
        parsed(&raw::set_plan(self.as_bytes(), 6, lengths)?)
    }
}

impl Network {
    /// Facts about the network, a line for each: its masks, its hosts, how many addresses it has, its address as a
    /// number, its reverse zones, and the special-purpose blocks of IANA's registries that share an address with it.
    ///
    /// ```
    /// use ipnet_proved::{Error, Network};
    ///
    /// let network: Network = "10.0.0.9/24".parse()?;
    /// assert!(network.info()?.contains("last host: 10.0.0.254\n"));
    /// assert!(network.info_json()?.contains("\"last_host\":\"10.0.0.254\""));
    /// # Ok::<(), Error>(())
    /// ```
    pub fn info(&self) -> Result<String, Error> {
        raw::info(self.to_bytes().as_slice(), LINES)
    }

    /// The facts of [`Network::info`] as a JSON object on one line. Its numbers are strings.
    pub fn info_json(&self) -> Result<String, Error> {
        raw::info(self.to_bytes().as_slice(), JSON)
    }
}
